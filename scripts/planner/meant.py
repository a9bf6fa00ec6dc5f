"""What may be meant by a field that is refused."""
import difflib
import re
from fractions import Fraction

from planner.formats import IDLE, LONGEST_NAME, Field

WEEKDAYS = ["mon", "tue", "wed", "thu", "fri", "sat", "sun"]


def is_number(word: str) -> bool:
    return re.fullmatch(r"[0-9]{1,10}", word) is not None


def name_fault(word: str) -> str | None:
    """Why a word is no name, if it is none."""
    if not word:
        return "is empty"
    if word == IDLE:
        return f"is `{IDLE}`, which means idle"
    if any("\ud800" <= character <= "\udfff" for character in word):
        return "isn't UTF-8"
    if any(ord(character) < 32 or ord(character) == 127 for character in word):
        return "has a control character (a tab or a line end, say)"
    size = len(word.encode())
    return f"has {size} bytes, more than {LONGEST_NAME}" if size > LONGEST_NAME else None


def clean_name(word: str) -> str:
    """A name without control characters, and not too long."""
    kept = "".join(it for it in word if ord(it) >= 32 and ord(it) != 127)
    return kept.encode()[:LONGEST_NAME].decode("utf-8", "ignore").strip()


def _plain(word: str) -> str:
    return "".join(word.casefold().split())


def nearest(word: str, known: list[str]) -> str | None:
    """The known name that a word is nearest to: but for blanks and capitals, or else by its letters."""
    same = [name for name in known if _plain(name) == _plain(word)]
    close = difflib.get_close_matches(word.strip(), known, 1)
    return (same or close or [None])[0]


def _decimal(word: str, column: Field) -> int | None:
    """A number with a decimal point or comma, a thousands mark, or a percent sign."""
    plain = re.sub(r"[\s'_\u00a0]", "", word)
    if re.fullmatch(r"[0-9]{1,3}([.,][0-9]{3})+", plain) and column.most >= 1000:
        return int(re.sub(r"[.,]", "", plain))
    found = re.fullmatch(r"([0-9]+(?:[.,][0-9]*)?)(%?)", plain)
    if not found:
        return None
    value = Fraction(found[1].replace(",", ".").rstrip("."))
    if column.name != "chance":
        return round(value)
    if found[2]:
        return round(value * column.most / 100)
    return round(value * column.most) if value <= 1 else round(value)


def number_meant(word: str, column: Field) -> int | None:
    """The number that a word may mean in a column; None where that can't be guessed."""
    if column.name == "day" and word.strip()[:3].lower() in WEEKDAYS:
        return WEEKDAYS.index(word.strip()[:3].lower()) + 1
    hours = re.fullmatch(r"([0-9]{1,2}):([0-9]{2})(:[0-9]{2})?", word.strip())
    if hours and column.name == "minutes":
        return int(hours[1]) * 60 + int(hours[2])
    if re.fullmatch(r"\s*-\s*[0-9.,]+\s*", word):
        return 0
    return _decimal(word, column)
