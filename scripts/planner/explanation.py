"""What is said of a refusal: where it is, the rule, and a change that mends it."""
from dataclasses import dataclass

from planner.folder import Record


@dataclass(frozen=True)
class Change:
    """A change of one file: a line is written anew, added behind or deleted, or the whole file is written."""

    file: str
    how: str  # write, add, delete, or whole
    line: int = 0
    text: str = ""

    def lines(self) -> list[str]:
        match self.how:
            case "write":
                return [f"in {self.file} write line {self.line} as: {self.text}"]
            case "add":
                return [f"in {self.file} add behind line {self.line}: {self.text}"]
            case "delete":
                return [f"in {self.file} delete line {self.line}"]
            case _:
                return [f"write {self.file} as:", *(f"    {line}" for line in self.text.splitlines())]


@dataclass(frozen=True)
class Explanation:
    """The place, the rule, what is so here, what mends it, and an example of it."""

    where: str
    rule: str
    here: str
    mend: str
    example: Change | list[Change] | None = None

    def lines(self) -> list[str]:
        told = [f"where: {self.where}", f"rule: {self.rule}", f"here: {self.here}", f"mend: {self.mend}"]
        changes = [self.example] if isinstance(self.example, Change) else self.example or []
        for at, change in enumerate(changes):
            first, *rest = change.lines()
            told += [f"{'and' if at else 'for example'}: {first}", *rest]
        return told


def place_of(file: str, record: Record) -> str:
    return f"{file}, line {record.line} (record {record.row}): {record.text}"


def write(file: str, record: Record, fields: list[str]) -> Change:
    """The line of a record with other fields."""
    return Change(file, "write", record.line, Record(record.row, record.line, fields).text)


def delete(file: str, record: Record) -> Change:
    return Change(file, "delete", record.line)


def whole(file: str, lines: list[str]) -> Change:
    return Change(file, "whole", 0, "\n".join(lines))
