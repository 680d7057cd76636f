"""What decides a line of a text: computed from the script by the second program, in tests/scripts."""
