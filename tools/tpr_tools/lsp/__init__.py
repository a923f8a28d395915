"""A language server: diagnostics, verdicts and the ways of messages, in an editor."""
