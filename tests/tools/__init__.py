"""The tools, tried."""
