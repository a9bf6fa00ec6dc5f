"""What is refused of certificate.txt: its text, or its tree."""
import re
from collections.abc import Iterator

from planner.command import Refused
from planner.explanation import Change, Explanation
from planner.folder import Folder
from planner.formats import CERTIFICATE, LONGEST_CERTIFICATE, RULES
from planner.hospital import Hospital, read_hospital
from planner.rules import broken_rule

NUMBER = "(?:0|[1-9][0-9]{0,8})"
KINDS = ["TooLong", "Version", "Head", "Line", "NoEnd", "After"]
REASONS = ["Header", "BranchFull", "DeadWrong", "FullShort", "Place", "BoundLow", "Ended", "Spare", "LowerWrong"]
ANEW = "let `mss plan` write it anew from these tables (`mss plan alike` where `mss check alike` refused it)"
TREE_LINES = (
    "`branch TURN`, `dead RULE`, `full TURN NUMBER WARD DAY`, `closed TURN NUMBER WARD DAY` or `open NUMBER WARD DAY`"
)


class Certificate:
    """The lines of certificate.txt, the prefix of each line of its tree, and the tables that it is about."""

    def __init__(self, folder: Folder, line: int) -> None:
        self.lines = folder.text(CERTIFICATE).split("\n")
        self.line = line
        self.text = self.lines[line - 1] if 0 < line <= len(self.lines) else ""
        self.hospital: Hospital = read_hospital(folder)
        self.options = [None, *self.hospital.specialties]

    @property
    def head(self) -> str:
        return f"slots {len(self.hospital.slots)} options {len(self.options)} level {self.hospital.settings['level']}"

    def prefixes(self) -> Iterator[tuple[int, list]]:
        """Each line of the tree by its number, with its prefix; at last the line behind, if a prefix is left."""
        left: list[list] = [[]]
        for at, text in enumerate(self.lines[2:], 3):
            if not left or text.startswith(("lower", "none")):
                break
            prefix = left.pop()
            yield at, prefix
            if text.startswith("branch"):
                left += [[*prefix, option] for option in reversed(self.options)]
        if left:
            yield at, left.pop()

    def prefix(self) -> list:
        for at, prefix in self.prefixes():
            if at == self.line:
                return prefix
        raise Refused(f"{CERTIFICATE} has no line {self.line} of its tree: was it changed since?")

    def least(self) -> str:
        """The last line that the numbers of the tree ask for."""
        numbers = [
            re.fullmatch(rf"(?:full {NUMBER}|closed {NUMBER}|open) ({NUMBER}) {NUMBER} {NUMBER}", text)
            for text in self.lines
        ]
        found = [int(it[1]) for it in numbers if it]
        return f"lower {min(found)}" if found else "none"

    def write(self, text: str) -> Change:
        return Change(CERTIFICATE, "write", self.line, text)


def _said(prefix: list, slots: int) -> str:
    names = ", ".join(option or "idle" for option in prefix) or "empty"
    return f"its prefix is {names} ({len(prefix)} of {slots} slots)"


def _of_text(folder: Folder, line: int, kind: str) -> Explanation:
    size = len(folder.bytes_of(CERTIFICATE))
    lines = folder.text(CERTIFICATE).split("\n")
    text = lines[line - 1] if 0 < line <= len(lines) else ""
    here, where = f"it is `{text}`", f"{CERTIFICATE}, line {line}"
    match kind:
        case "TooLong":
            rule = f"it has at most {LONGEST_CERTIFICATE} bytes"
            return Explanation(
                CERTIFICATE,
                rule,
                f"it has {size}",
                "lower budget in settings.toml, or fix more slots, and let `mss plan` write it anew",
            )
        case "Version":
            rule = "it begins with the line `mss certificate 1` or `mss certificate 2`, ended by a line feed alone"
            named = "mss certificate 1" if text.startswith("mss certificate 1") else "mss certificate 2"
            return Explanation(where, rule, here, ANEW, Change(CERTIFICATE, "write", 1, named))
        case "Head":
            rule = "the second line is `slots NUMBER options NUMBER level NUMBER`"
            return Explanation(where, rule, here, ANEW, Change(CERTIFICATE, "write", 2, Certificate(folder, line).head))
        case "Line":
            rule = (
                f"it is {TREE_LINES}, or the last line `lower NUMBER` or `none`; a number has 1 to 9 digits and no"
                " leading zero"
            )
            return Explanation(where, rule, here, ANEW)
        case "NoEnd":
            least = Certificate(folder, line).least()
            rule = "the last line is `lower NUMBER` or `none`, ended by a line feed"
            change = Change(CERTIFICATE, "write", line, least) if text else Change(CERTIFICATE, "add", line - 1, least)
            return Explanation(
                where, rule, "the text ends before it, or in it", f"{ANEW}; it may have been cut off", change
            )
        case _:
            rule = "nothing follows the last line `lower NUMBER` or `none`"
            return Explanation(where, rule, here, "delete what follows", Change(CERTIFICATE, "delete", line))


def _of_tree(certificate: Certificate, reason: str) -> Explanation:
    hospital, text = certificate.hospital, certificate.text
    where, slots = f"{CERTIFICATE}, line {certificate.line}: {text}", len(hospital.slots)
    if reason == "Header":
        rule = "the slots, the options and the level are those of the tables"
        mend = (
            f"it is of other tables than these, or a table was changed since: {ANEW}, or take back the tables that it"
            " is of"
        )
        return Explanation(
            where, rule, f"the tables have `{certificate.head}`", mend, certificate.write(certificate.head)
        )
    if reason == "Spare":
        rule = "no line of a tree follows when each prefix has its line"
        return Explanation(
            where,
            rule,
            "the tree is complete before this line",
            f"delete it, or {ANEW}",
            Change(CERTIFICATE, "delete", certificate.line),
        )
    if reason == "LowerWrong":
        rule, least = "the last line has the least NUMBER of the tree", certificate.least()
        return Explanation(where, rule, f"that is `{least}`", f"write it so, or {ANEW}", certificate.write(least))
    return _of_prefix(certificate, reason, where, _said(certificate.prefix(), slots))


def _of_prefix(certificate: Certificate, reason: str, where: str, here: str) -> Explanation:
    """What is refused of a line of the tree by its prefix."""
    hospital, prefix = certificate.hospital, certificate.prefix()
    broken = broken_rule(hospital, prefix)
    told = f"it breaks rule {broken} first ({RULES[broken]})" if broken else "it breaks no rule"
    match reason:
        case "BranchFull":
            return Explanation(
                where, "a whole cycle has no branch", here, f"write `dead RULE` or `full ..` for it, or {ANEW}"
            )
        case "DeadWrong":
            change = certificate.write(f"dead {broken}") if broken else None
            return Explanation(
                where,
                "RULE is the least rule that the prefix breaks; 9 stands in certificates of `plan alike` alone",
                f"{here}; {told}",
                f"write that rule, or {ANEW}",
                change,
            )
        case "FullShort":
            change = certificate.write(f"dead {broken}") if broken else None
            rule = "a full line stands at a whole cycle that breaks no rule"
            return Explanation(
                where, rule, f"{here}; {told}", f"write `branch`, `dead` or `closed` for it, or {ANEW}", change
            )
        case "Place":
            wards = [str(at) for at, ward in enumerate(hospital.wards, 1) if ward in hospital.settings["watch"]]
            rule = f"WARD is watched ({', '.join(wards)}), and DAY is from 1 to {hospital.days}"
            change = certificate.write(" ".join([*certificate.text.split(" ")[:-2], wards[0], "1"]))
            return Explanation(
                where, rule, here, f"name such a place, with a NUMBER that its census reaches, or {ANEW}", change
            )
        case "BoundLow":
            *words, number, ward, day = certificate.text.split(" ")
            allowance = hospital.allowance(hospital.wards[int(ward) - 1])
            beside = f", beside its {allowance} beds that are always taken" if allowance else ""
            rule = (
                "NUMBER is at most the percentile that the census of WARD on DAY has already for the prefix, in version 2"
                f" with the blocks that must still come{beside}"
            )
            lower = certificate.write(" ".join([*words, str(max(int(number) - 1, 0)), ward, day]))
            return Explanation(
                where,
                rule,
                f"{here}; {number} is above it",
                f"lower NUMBER, and the last line with it, or {ANEW}",
                lower,
            )
        case _:
            rule = "each prefix of the tree has its line before the last line"
            return Explanation(
                where, rule, f"a line is missing before this one: {here}", f"{ANEW}; lines may have been lost"
            )


def explain_certificate(folder: Folder, line: int, kind: str) -> Explanation:
    if kind in KINDS:
        return _of_text(folder, line, kind)
    return _of_tree(Certificate(folder, line), kind)
