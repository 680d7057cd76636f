"""Scripts of the mode `fold`, and a second program for them."""
