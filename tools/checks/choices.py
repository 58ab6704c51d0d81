"""Numbers by chance that are the same in each run."""


class Choices:
    """A row of numbers."""

    def __init__(self, seed):
        self.state = seed

    def below(self, count):
        self.state = (self.state * 6364136223846793005 + 1442695040888963407) % 2**64
        return (self.state >> 33) % count
