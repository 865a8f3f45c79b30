"""Why there is no report."""


class Error(Exception):
    """Is raised where there is no report, or no replies."""


class NotModule(Error, ValueError):
    """The input is no module.

    It has the `path` to the wrong value, as `entry_points[0].stage`, or None where the input isn't JSON; `byte` from 0, `line` and
    `column` from 1 or None; `expected` and `found`, which may be None; `diagnostic`, and the `text` of the program `report`.
    """

    def __init__(self, text, diagnostic, path, byte, wanted):
        location, data = diagnostic.location, diagnostic.data
        self.text, self.diagnostic, self.path = text, diagnostic, path
        self.byte = byte if location.byte is None else location.byte
        self.line, self.column = location.line, location.column
        self.expected, self.found = data.get("expected", wanted), data.get("found")
        where = f"byte {self.byte}: " if self.line is None else f"line {self.line}, column {self.column}: "
        super().__init__(f"not a module: {where if self.byte is not None else ''}{diagnostic.message} [{diagnostic.code}]")


class OutOfMemory(Error, MemoryError):
    """An allocation of the library failed, or that of the buffer for its text."""

    def __init__(self):
        super().__init__("out of memory")


class TooLong(Error, ValueError):
    """The lines have more than 1,048,576 bytes."""

    def __init__(self):
        super().__init__("the lines have more than 1,048,576 bytes")


class LibraryError(Error):
    """The library ended with a `status` that has no meaning here. It may be of another version than this package."""

    def __init__(self, status):
        self.status = status
        super().__init__(f"the library ended with status {status}, which this version of the package doesn't know")


class VersionError(Error):
    """The library answered in a format of another version, which is `found`."""

    def __init__(self, found):
        self.found = found
        super().__init__(f"the library answers in the format {found}, which this version of the package doesn't read")


class AnswerError(Error):
    """The text of the library isn't one that this package reads."""
