"""Pages: traces as HTML."""
