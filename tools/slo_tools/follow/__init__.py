"""Keeps a copy of an office that is a front of its history, or says that it isn't."""
