"""The parts of bench/run: what is asked, of whom, in what time, and how it is shown."""
