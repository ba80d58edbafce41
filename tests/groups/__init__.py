"""The groups of tests, one module each; `run` tries the group's cases."""
