"""Comparing an implementation with what is right: running it, judging and shrinking what differs, and saying why."""
