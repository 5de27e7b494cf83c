"""What is read: scripts, reports, traces, places in a text, the tables of calls, rules and limits."""
