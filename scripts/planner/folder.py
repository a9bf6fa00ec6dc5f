"""The files of a folder, read as `mss` reads them."""
import csv
import io
import os
import tomllib
from collections.abc import Iterator
from dataclasses import dataclass

from planner.command import Refused
from planner.formats import FINE_PARTS, PARTS, SETTINGS

csv.field_size_limit(1 << 30)


@dataclass(frozen=True)
class Record:
    """A record of a file: its number after the header, the first line that it stands in, and its fields."""

    row: int
    line: int
    fields: list[str]

    @property
    def text(self) -> str:
        return csv_line(self.fields)


def csv_line(fields: list[str]) -> str:
    """The line of some fields, quoted where a comma or a quote asks for it."""
    out = io.StringIO()
    csv.writer(out, lineterminator="").writerow(fields)
    return out.getvalue()


def text_of(content: bytes) -> str:
    """The text of bytes, less one byte order mark; bytes that are no UTF-8 become lone surrogates."""
    return content.removeprefix(b"\xef\xbb\xbf").decode("utf-8", "surrogateescape")


def records_in(text: str, separator: str = ",") -> Iterator[Record]:
    """The records of a text, the header as row 0; lines without any byte are none."""
    reader = csv.reader(io.StringIO(text, newline=""), delimiter=separator)
    row, line = 0, 1
    for fields in reader:
        if fields:
            yield Record(row, line, fields)
            row += 1
        line = reader.line_num + 1


class Folder:
    """The files of a folder, each read once."""

    def __init__(self, path: str = ".") -> None:
        self.path = path
        self._bytes: dict[str, bytes] = {}
        self._records: dict[str, list[Record]] = {}

    def has(self, name: str) -> bool:
        return os.path.isfile(os.path.join(self.path, name))

    def bytes_of(self, name: str) -> bytes:
        if name not in self._bytes:
            with open(os.path.join(self.path, name), "rb") as file:
                self._bytes[name] = file.read()
        return self._bytes[name]

    def text(self, name: str) -> str:
        return text_of(self.bytes_of(name))

    def records(self, name: str) -> list[Record]:
        """All records of a file, the header first."""
        if name not in self._records:
            self._records[name] = list(records_in(self.text(name)))
        return self._records[name]

    def rows(self, name: str) -> list[Record]:
        """The records after the header."""
        return self.records(name)[1:]

    def column(self, name: str, place: int) -> list[str]:
        """The different values of a column, in the order in which they are first named."""
        return list(dict.fromkeys(it.fields[place] for it in self.rows(name) if len(it.fields) > place))

    def settings(self) -> dict:
        try:
            return tomllib.loads(self.text(SETTINGS))
        except (tomllib.TOMLDecodeError, UnicodeError) as error:
            raise Refused(f"{SETTINGS}: {error}") from None

    @property
    def parts(self) -> int:
        """The parts of the chances of patients.csv and stays.csv."""
        return FINE_PARTS if self.settings().get("parts") == FINE_PARTS else PARTS

    @property
    def rooms(self) -> list[str]:
        return self.column("rooms.csv", 0)

    @property
    def specialties(self) -> list[str]:
        return self.column("specialties.csv", 0)

    @property
    def wards(self) -> list[str]:
        return self.column("specialties.csv", 1)

    @property
    def equipment(self) -> list[str]:
        return self.column("equipment.csv", 0)
