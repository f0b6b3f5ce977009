"""What can go wrong: a refusal, which has a number, and anything else."""


class Refusal(Exception):
    """A refusal by number; `stream` is what the proved program refuses alike, where it can be asked."""

    def __init__(self, number, why, stream=None):
        super().__init__(f"refused {number}: {why}")
        self.number, self.stream = number, stream


class Trouble(Exception):
    """One line, and status 2."""


class Said(Trouble):
    """The line has been said already."""
