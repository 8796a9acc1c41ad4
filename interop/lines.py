"""What the program prints of one copy, and the status that it ends with (README, "What it prints, and its exit status")."""

from typing import NamedTuple

MESSAGES = {400: "Bad Request", 403: "Forbidden", 404: "Not Found", 412: "Precondition Failed"}
WRONG_SIGNATURE = (
    "The request signature we calculated does not match the signature you provided. Check your key and signing method."
)
SKEWED = "The difference between the request time and the current time is too large."


class Outcome(NamedTuple):
    """The status, the words before the paths of the copy, and the text behind them."""

    status: int
    words: str
    text: str = ""

    def shown(self, file, uri):
        """The status, and what the two outputs get."""
        line = f"{self.words}: {file} to {uri}{self.text}\n"
        return (self.status, line, "") if self.status == 0 else (self.status, "", line)


STORED = Outcome(0, "upload")


def refusal(code, message):
    return f" An error occurred ({code}) when calling the PutObject operation: {message}"


def refused(status, code="", message=""):
    """The service refused: with the code and the message of its document, or of the status where it has none."""
    code, message = (code, message) if code else (status, MESSAGES.get(status, "Refused"))
    return Outcome(1, "upload failed", refusal(code, message))


def unknown(code, message):
    """The service refused the last attempt, and an earlier one may have come through."""
    return Outcome(1, "upload unknown", refusal(code, message))


def lost(why):
    """Nobody here can know."""
    return Outcome(1, "upload unknown", f" The answer to the PutObject operation was lost ({why})")
