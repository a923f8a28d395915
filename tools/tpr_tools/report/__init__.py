"""Reads a report of `tpr run`: its messages, an order of its entries, and the differences between two reports."""
