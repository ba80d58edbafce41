"""What the contracts of this repository rest on: read off the sources, and written as a page."""
