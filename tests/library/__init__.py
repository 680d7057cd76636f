"""The library for C and its bindings."""
