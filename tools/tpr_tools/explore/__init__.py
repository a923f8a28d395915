"""Shows a run for each verdict that `tpr verdicts` prints, and where two runs diverge."""
