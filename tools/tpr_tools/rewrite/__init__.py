"""Carries scripts of the full language over to the profile: the modules of `tools/rewrite`."""
