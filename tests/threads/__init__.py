"""The built program under load, and while single threads of it are stopped."""
