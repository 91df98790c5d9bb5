"""Why something can't be told, in one sentence."""


class Refused(Exception):
    """It can't be done, and the text says why."""


class Failed(Refused):
    """A camera that was to be read doesn't answer."""
