"""Pages and diagrams of scripts and their texts."""
