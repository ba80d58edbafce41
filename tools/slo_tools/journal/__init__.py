"""What stands in an office's journal."""
