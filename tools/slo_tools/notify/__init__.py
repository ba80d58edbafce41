"""Alerts of an office, passed on."""
