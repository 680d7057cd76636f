"""What tools/check_log does: the entries of a log, the session that says what is right, and why a line is."""
