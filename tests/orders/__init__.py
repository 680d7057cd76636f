"""Every order of the events of small clusters, by the library."""
