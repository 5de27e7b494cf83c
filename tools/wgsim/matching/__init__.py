"""What the program says, set beside the script, the trace or the other report that it is about."""
