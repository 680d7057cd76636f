"""What must pass. Every module is imported by its whole name, as tests.scripts.fold.reference is."""
