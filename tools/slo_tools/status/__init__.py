"""How all objectives of an office stand, in a terminal."""
