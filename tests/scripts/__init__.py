"""Scripts and what they must be answered: see README.md."""
