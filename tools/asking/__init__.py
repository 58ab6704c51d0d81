"""One question to the workbench, for tools/ask: signs of other texts, what is wrong in a formula, scripts and answers."""
