"""A folder of OpenSLO files as the truth of an office."""
