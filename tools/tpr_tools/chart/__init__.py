"""Draws the sequence chart of a report: as SVG, with letters, or as a page."""
