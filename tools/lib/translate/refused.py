"""What a helper cannot translate: the reason, and the place that shows it. Not proved."""


class Refused(Exception):
    """The model has no translation. `place` is a token of the text that was read, or None."""

    def __init__(self, reason, place=None):
        super().__init__(reason)
        self.reason, self.place = reason, place
