"""Makes a trace of the logs of Eclipse Titan."""
