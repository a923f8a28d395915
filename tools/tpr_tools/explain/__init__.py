"""Says what is wrong in a script that `tpr check` refuses, and what to write."""
