"""The built program where growths of memory, reads and writes fail."""
