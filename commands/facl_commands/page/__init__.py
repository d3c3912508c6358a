"""facl-report: the page of HTML, its data, its style and its scripts; also the pages of facl-audit and facl-diff."""
