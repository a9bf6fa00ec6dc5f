"""What is refused of weights.txt: its text, or that it doesn't show its number."""
import re

from planner.command import Refused
from planner.explanation import Change, Explanation
from planner.folder import Folder
from planner.formats import LONGEST_WEIGHTS, WEIGHTS

KINDS = ["TooLong", "Version", "Head", "List", "After"]
VERSION = "mss weights 1"
WORDS = ["places", "blocks", "slots", "kinds"]
ANEW = "let `mss_improve cycle` or `mss_improve new` write it anew from these tables"
NUMBERS = "a number has 1 to 9 digits and no leading zero"


def _version(folder: Folder) -> Explanation:
    rule = f"it begins with the line `{VERSION}`, ended by a line feed alone"
    if not folder.bytes_of(WEIGHTS):
        here = "it has no bytes: where it was written, no lower number was shown (`lower 0`)"
        mend = f"write the minutes that must stay into `low` of specialties.csv, and {ANEW}"
        return Explanation(WEIGHTS, rule, here, mend)
    here = f"it is `{folder.text(WEIGHTS).split(chr(10))[0]}`"
    return Explanation(f"{WEIGHTS}, line 1", rule, here, ANEW, Change(WEIGHTS, "write", 1, VERSION))


def _spelled(word: str, text: str) -> str | None:
    """The line of a word and its numbers, as it is spelled, where all of them are numbers of 9 digits at most."""
    first, *numbers = text.split() or [""]
    if first != word or not all(re.fullmatch("0*[0-9]{1,9}", it, re.ASCII) for it in numbers):
        return None
    return " ".join([word, *(str(int(it)) for it in numbers)])


def _list(line: int, lines: list[str]) -> Explanation:
    word = WORDS[line - 3]
    where, rule = f"{WEIGHTS}, line {line}", f"it is `{word}` and then its numbers, each after one space; {NUMBERS}"
    if len(lines) < line or len(lines) == line and not lines[-1]:
        here, mend = "the text ends before it", f"{ANEW}; it may have been cut off"
        return Explanation(where, rule, here, mend, Change(WEIGHTS, "add", line - 1, word))
    text = lines[line - 1]
    if len(lines) == line:
        return Explanation(where, rule, "the text ends in it", f"{ANEW}; it may have been cut off")
    spelled = _spelled(word, text)
    return Explanation(where, rule, f"it is `{text}`", ANEW, Change(WEIGHTS, "write", line, spelled) if spelled else None)


def explain_weights(folder: Folder, line: int, kind: str) -> Explanation:
    if kind == "TooLong":
        rule, here = f"it has at most {LONGEST_WEIGHTS} bytes", f"it has {len(folder.bytes_of(WEIGHTS))}"
        return Explanation(WEIGHTS, rule, here, ANEW)
    if kind == "Version":
        return _version(folder)
    lines = folder.text(WEIGHTS).split("\n")
    text = lines[line - 1] if 0 < line <= len(lines) else ""
    where, here = f"{WEIGHTS}, line {line}", f"it is `{text}`"
    if kind == "Head":
        return Explanation(where, f"it is `number NUMBER power POWER reach REACH`; {NUMBERS}", here, ANEW)
    if kind == "After":
        rule = f"nothing follows the line of `{WORDS[-1]}`"
        return Explanation(where, rule, here, "delete what follows", Change(WEIGHTS, "delete", line))
    if not 3 <= line < 3 + len(WORDS):
        raise Refused(f"{WEIGHTS} has no prices in line {line}")
    return _list(line, lines)


def explain_not_shown(folder: Folder) -> Explanation:
    head = re.search(r"^number (\d+) power \d+ reach \d+$", folder.text(WEIGHTS), re.MULTILINE | re.ASCII)
    number = head[1] if head else "its number"
    rule = "its prices show under these tables that every legal cycle peaks at least at its number"
    here = f"they don't show {number}, which may be true all the same"
    mend = (
        f"it is of other tables than these, or a table or a number of it was changed since: {ANEW}, or take back the"
        " tables that it is of"
    )
    return Explanation(WEIGHTS, rule, here, mend)
