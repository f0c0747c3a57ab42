"""What goes wrong with a database."""


class NoDatabase(Exception):
    """The database can't be reached or asked at all; the message says why."""


class Lost(Exception):
    """The server went away while it was asked."""


class Failure(Exception):
    """A statement failed in the engine. `fault` is the number of the language's fault of this kind, if it is one."""

    def __init__(self, message, fault=None):
        super().__init__(message)
        self.fault = fault
