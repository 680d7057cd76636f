"""A cluster to play with: what tools/play serves."""
