"""Reads a script of the profile, finds its first fault, and says what its components do."""
