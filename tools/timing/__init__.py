"""The parts of tools/bench: the texts that are timed, the rows with their bounds, and the measures."""
