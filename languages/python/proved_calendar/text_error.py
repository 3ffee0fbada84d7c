"""The error of a text that cannot be read."""
from __future__ import annotations


class TextError(ValueError):
    """What is wrong with a text, and where: `text[start:end]` is wrong.

    >>> from proved_calendar import Schedule
    >>> try:
    ...     Schedule("0 25 * * *")
    ... except TextError as error:
    ...     print(error.text[error.start:error.end])
    25
    """

    text: str
    start: int
    end: int

    def __init__(self, message: str, text: str, start: int, end: int) -> None:
        super().__init__(message)
        self.text, self.start, self.end = text, start, end

    def __reduce__(self) -> tuple[type[TextError], tuple[str, str, int, int]]:
        return type(self), (str(self), self.text, self.start, self.end)


TextError.__module__ = "proved_calendar"
