"""Puts a report beside its script: the line of each entry, and why the result isn't `pass`."""
