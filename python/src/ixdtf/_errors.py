"""The exception IxdtfError."""
from typing import Optional, Union


class IxdtfError(ValueError):
    """Raised if a text is refused. It has these attributes:

    text        the text, as str or bytes
    message     says what is wrong in the text, and what was expected
    hint        says what to change in the text, or None if there is no hint
    reason      the name of the reason, such as "month_range"
    start, end  the part of the text that is wrong, text[start:end], in code points (of a str) or bytes (of bytes)
    position    the number of code points (of a str) or bytes (of bytes) before the error
    name        the name of the error, such as "DATE_MONTH"
    crate_text  the text of the error in the Rust crate ixdtf 0.6.7
    within      what was being parsed, such as "digit", if the name of the error is "ABRUPT_END"; otherwise ""
    index       the number of the text, counted from 0, if instants() raised the error; otherwise None

    str() returns three lines: the message, the text, and marks under the part that is wrong. If there is a hint, it is the fourth line.
    """

    __module__ = "ixdtf"
    hint: Optional[str]
    index: Optional[int] = None

    def __init__(
        self, text: Union[str, bytes], name: str, crate_text: str, reason: str, position: int, start: int, end: int, report: str, within: str
    ) -> None:
        self.text = text
        self.name = name.removeprefix("IXDTF_")
        self.crate_text = f"{crate_text.rstrip('.')} while parsing {within}" if within else crate_text
        self.reason = reason
        self.position = position
        self.start = start
        self.end = end
        # A newline of the text is shown as ".", so the report has no other newlines than those between its lines.
        lines = report.split("\n")
        self.message = lines[0]
        self.hint = lines[3].removeprefix("hint: ") if len(lines) > 3 else None
        self.within = within
        self._report = report
        super().__init__(text, name, crate_text, reason, position, start, end, report, within)

    def __str__(self) -> str:
        return self._report
