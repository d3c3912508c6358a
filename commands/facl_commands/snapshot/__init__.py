"""facl-snapshot: it reads names, records and lists of the live system, and changes nothing there but DIR."""
