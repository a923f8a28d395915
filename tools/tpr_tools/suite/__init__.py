"""Runs many scripts in parallel, and judges the results."""
