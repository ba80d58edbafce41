"""Programs around an error budget office, over its interface."""
