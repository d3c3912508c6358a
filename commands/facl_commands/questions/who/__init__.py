"""facl-who: who may do what with which files, and what one user may do."""
