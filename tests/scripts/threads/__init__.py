"""Scripts of the mode `threads`, a second program for them, and what decides whether a text is right."""
