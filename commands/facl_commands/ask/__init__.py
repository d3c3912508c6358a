"""facl-ask: scripts and a prompt over one snapshot. Modules that it alone needs are here."""
