"""The model of runs, by which the gate judges reports. It uses only the table of refusals of the other tools."""
