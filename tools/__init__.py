"""Programs for whoever compares, draws or makes scripts, and the packages that these share."""
