"""Scripts of the mode `turns`, and a second program for them."""
