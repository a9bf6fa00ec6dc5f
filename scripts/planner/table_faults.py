"""Faults of the comma separated tables: which field it is, and what mends it."""
import itertools
from collections import Counter
from collections.abc import Callable

from planner.command import Refused
from planner.explanation import Change, Explanation, delete, place_of, whole, write
from planner.folder import Folder, Record, csv_line
from planner.formats import (
    BLOCK,
    BLOCK_WORDS,
    CHANCE,
    DAYS,
    FINE_PARTS,
    IDLE,
    LONGEST_TABLE,
    MOST_NAMES,
    MOST_PATIENTS,
    MOST_WARDS,
    PARTS,
    TABLES,
    Field,
)
from planner.meant import clean_name, is_number, name_fault, nearest, number_meant
from planner.setting_faults import finer_settings
from planner.stays import of_those_there


class Unlike(Exception):
    """The folder's files don't show the fault that is told."""


class TableFault:
    """A fault of one file: its record, and the item that it names."""

    def __init__(self, folder: Folder, file: str, row: int, item: int) -> None:
        self.folder, self.file, self.item = folder, file, item
        self.table = TABLES[file]
        self.records = folder.records(file)
        if row >= max(len(self.records), 1):
            raise Unlike
        self.record = self.records[row] if self.records else Record(0, 1, [])

    @property
    def fields(self) -> list[str]:
        return self.record.fields

    @property
    def where(self) -> str:
        return place_of(self.file, self.record)

    @property
    def parts(self) -> int:
        """The parts of the file's chances."""
        return PARTS if self.file == BLOCK else self.folder.parts

    def lines(self) -> list[str]:
        return self.folder.text(self.file).splitlines()

    def column(self, place: int) -> Field:
        """A column, with the most of the day and of a chance from the settings, and of the number by the word of block.csv."""
        column = self.table.columns[place]
        if column.most == CHANCE:
            return Field(column.name, column.holds, column.least, self.parts)
        if column.most == DAYS:
            return Field(column.name, column.holds, column.least, self.folder.settings()["days"])
        if self.file == BLOCK and column.name == "number" and self.fields[0] == BLOCK_WORDS[0]:
            return Field(column.name, column.holds, 0, MOST_PATIENTS)
        return column

    def first(self, holds: Callable[[int], bool]) -> int:
        """The first column of which something holds."""
        for place in range(len(self.fields)):
            if holds(place):
                return place
        raise Unlike

    def known(self, place: int) -> list[str]:
        """The names that a column may have."""
        match self.table.columns[place].name:
            case "room":
                return self.folder.rooms
            case "equipment":
                return self.folder.equipment
            case _:
                return self.folder.specialties

    def set(self, place: int, word: str) -> Change:
        return write(self.file, self.record, [*self.fields[:place], word, *self.fields[place + 1 :]])

    def same(self, before: bool) -> list[Record]:
        """The records of the same specialty (in block.csv of the same word), those before this one or all."""
        end = self.record.row if before else len(self.records)
        return [it for it in self.records[1:end] if it.fields[0] == self.fields[0]]

    def explain(self, kind: str) -> Explanation:
        if kind not in FAULTS:
            raise Unlike
        return FAULTS[kind](self)


def _as_commas(fault: TableFault) -> list[str] | None:
    """The lines of a file that is parted by semicolons or tabs, with commas."""
    header = fault.table.header
    for separator in ";\t":
        if fault.lines()[0].strip().lower().split(separator) == header:
            return [csv_line(line.split(separator)) for line in fault.lines()]
    return None


def header(fault: TableFault) -> Explanation:
    wanted, content = csv_line(fault.table.header), fault.folder.bytes_of(fault.file)
    rule, where = f"the first line is exactly `{wanted}`", f"{fault.file}, line 1"
    if not fault.lines():
        change = whole(fault.file, [wanted])
        return Explanation(
            where, rule, "the file is empty", "a table that has nothing to say holds this line alone", change
        )
    if content[:2] in (b"\xff\xfe", b"\xfe\xff"):
        lines = content.decode("utf-16", "replace").splitlines()
        change = whole(fault.file, [csv_line(line.split("\t")) for line in lines])
        return Explanation(where, rule, "the file is UTF-16, not UTF-8", "save it as `CSV UTF-8`", change)
    here, mend = (
        f"it is `{fault.record.text}`",
        "write the names of the columns in this order, in small letters and without blanks",
    )
    if commas := _as_commas(fault):
        return Explanation(
            where,
            rule,
            here,
            "part the fields by commas, in all lines (save as CSV with commas)",
            whole(fault.file, commas),
        )
    if [word.strip().lower() for word in fault.fields] != fault.table.header and _fits(fault, fault.fields):
        change = whole(fault.file, [wanted, *fault.lines()])
        return Explanation(where, rule, f"{here}, a record", "put the line of names before it", change)
    return Explanation(where, rule, here, mend, Change(fault.file, "write", fault.record.line, wanted))


def _fits(fault: TableFault, fields: list[str]) -> bool:
    """Whether fields have the form of a record."""
    columns = fault.table.columns
    return len(fields) == len(columns) and all(
        is_number(word) for word, it in zip(fields, columns) if it.holds == "number"
    )


def _joined(fault: TableFault) -> list[str] | None:
    """The fields where a name with a comma wasn't quoted: its pieces joined, if that fits."""
    spare = len(fault.fields) - len(fault.table.columns)
    for at, column in enumerate(fault.table.columns):
        if spare > 0 and column.holds in ("name", "option"):
            joined = ",".join(fault.fields[at : at + spare + 1])
            fields = [*fault.fields[:at], joined, *fault.fields[at + spare + 1 :]]
            if _fits(fault, fields) and (not column.must_be_known or joined in fault.known(at)):
                return fields
    return None


def columns(fault: TableFault) -> Explanation:
    wanted = len(fault.table.columns)
    rule = f"a record has {wanted} fields: {', '.join(fault.table.header)}"
    here, filled = f"it has {len(fault.fields)}", [word for word in fault.fields if word]
    if not filled:
        return Explanation(
            fault.where, rule, f"{here}, all empty", "delete empty rows", delete(fault.file, fault.record)
        )
    if fields := _joined(fault):
        change = write(fault.file, fault.record, fields)
        return Explanation(fault.where, rule, here, "put a name that has a comma in quotes", change)
    missing = [_usual(fault, place) for place in range(len(fault.fields), wanted)]
    change = write(fault.file, fault.record, [*fault.fields, *missing][:wanted])
    return Explanation(fault.where, rule, here, "give each column its field, and no more", change)


def _usual(fault: TableFault, place: int) -> str:
    """What most records have in a column, for a field that can't be guessed."""
    column, values = fault.column(place), Counter(
        it.fields[place] for it in fault.records[1:] if len(it.fields) > place
    )
    if column.holds == "number":
        fit = [word for word, _ in values.most_common() if is_number(word) and column.least <= int(word) <= column.most]
        return fit[0] if fit else str(column.least)
    return next((word for word, _ in values.most_common() if not name_fault(word)), "Name")


def number(fault: TableFault) -> Explanation:
    place = fault.first(lambda at: fault.column(at).holds == "number" and not is_number(fault.fields[at]))
    column, word = fault.column(place), fault.fields[place]
    meant = number_meant(word, column)
    filled = _usual(fault, place) if meant is None else str(min(max(meant, column.least), column.most))
    unit = f" It is in parts of {whole_of(fault)}: 40% is {fault.parts * 4 // 10}." if column.name == "chance" else ""
    return Explanation(
        fault.where,
        f"{column.name} is a whole number of 1 to 10 digits: no sign, point, comma, blank or unit",
        f"{column.name} is `{word}`",
        f"write {column.name} in digits alone, from {column.least} to {column.most}.{unit}",
        fault.set(place, filled),
    )


def whole_of(fault: TableFault) -> str:
    return "a million" if fault.parts == PARTS else "a thousand million"


def _is_finer(fault: TableFault) -> bool:
    """Whether the chances of the record's specialty are in finer parts than the settings say."""
    if fault.parts == FINE_PARTS or fault.file not in ("patients.csv", "stays.csv"):
        return False
    chances = [int(it.fields[2]) for it in fault.same(before=False)]
    return FINE_PARTS in (sum(chances), chances[-1])


def range_of(fault: TableFault) -> Explanation:
    def is_outside(place: int) -> bool:
        it = fault.column(place)
        return (
            it.holds == "number"
            and is_number(fault.fields[place])
            and not it.least <= int(fault.fields[place]) <= it.most
        )

    place = fault.first(is_outside)
    column, value = fault.column(place), int(fault.fields[place])
    most = f"{column.most}, the days of settings.toml" if column.name == "day" else str(column.most)
    if column.name == "chance" and _is_finer(fault):
        return Explanation(
            fault.where,
            f"{column.name} is from {column.least} to {most}",
            f"{column.name} is {value}, in parts of {FINE_PARTS}",
            f"write version = 2 and parts = {FINE_PARTS} into settings.toml",
            finer_settings(fault.folder),
        )
    return Explanation(
        fault.where,
        f"{column.name} is from {column.least} to {most}",
        f"{column.name} is {value}",
        f"write a {column.name} within this range"
        + (", or raise days in settings.toml" if column.name == "day" and value else ""),
        fault.set(place, str(min(max(value, column.least), column.most))),
    )


def name(fault: TableFault) -> Explanation:
    def has_fault(place: int) -> bool:
        holds, word = fault.column(place).holds, fault.fields[place]
        return (
            holds == "name" and bool(name_fault(word)) or holds == "option" and word != IDLE and bool(name_fault(word))
        )

    place = fault.first(has_fault)
    column, word = fault.column(place), fault.fields[place]
    why = name_fault(word)
    rule = f"{column.name} is a name of 1 to 60 bytes of UTF-8, without control characters, and not `{IDLE}` alone"
    here, mend = f"{column.name} {why}", "write the name, the same in all files"
    if why == "isn't UTF-8":
        text = fault.folder.bytes_of(fault.file).decode("cp1252", "replace")
        return Explanation(
            _shown(fault), rule, here, "save the file as `CSV UTF-8`", whole(fault.file, text.splitlines())
        )
    if not any(fault.fields):
        return Explanation(fault.where, rule, here, "delete empty rows", delete(fault.file, fault.record))
    above = fault.records[fault.record.row - 1].fields[place] if fault.record.row > 1 else _usual(fault, place)
    if not word:
        mend = "write the name in every row (a joined cell of a spreadsheet has it in its first row alone)"
    return Explanation(
        _shown(fault), rule, here, mend, fault.set(place, clean_name(word.replace(IDLE, "", word == IDLE)) or above)
    )


def _shown(fault: TableFault) -> str:
    """The place of a fault whose bytes can't be shown as they are."""
    return fault.where.encode("utf-8", "backslashreplace").decode()


def too_many(fault: TableFault) -> Explanation:
    most, what, there = MOST_NAMES.get(fault.file, 0), fault.table.columns[0].name, fault.known(0)
    if fault.file == "rooms.csv":
        there = fault.folder.rooms
    if fault.file == "specialties.csv" and there.index(fault.fields[0]) < most:
        most, what, there = MOST_WARDS, "ward", fault.folder.wards
    return Explanation(
        fault.where,
        f"there are at most {most} different names of a {what}",
        f"this is one more, after {', '.join(there[:most])}",
        "leave some out or join some, here and in the other files; look for one name that is spelled in two ways",
        delete(fault.file, fault.record),
    )


def unknown(fault: TableFault) -> Explanation:
    def is_unknown(place: int) -> bool:
        word = fault.fields[place]
        is_idle = word == IDLE and fault.table.columns[place].holds == "option"
        return fault.table.columns[place].must_be_known and not is_idle and word not in fault.known(place)

    place = fault.first(is_unknown)
    column, word, known = fault.column(place), fault.fields[place], fault.known(place)
    rule = f"{column.name} is a name that {_told_in(column.name)} has, letter by letter"
    here, mend = (
        f"`{word}` isn't there; it has {', '.join(known)}",
        f"write the name as {_told_in(column.name)} has it, or add it there",
    )
    for fields in itertools.permutations(fault.fields):
        if _fits(fault, fields) and all(
            fields[at] in fault.known(at) for at, it in enumerate(fault.table.columns) if it.must_be_known
        ):
            change = write(fault.file, fault.record, list(fields))
            return Explanation(
                fault.where, rule, here, f"write the fields in the order {', '.join(fault.table.header)}", change
            )
    meant = nearest(word, known)
    return Explanation(
        fault.where, rule, here, mend, fault.set(place, meant) if meant else delete(fault.file, fault.record)
    )


def _told_in(column: str) -> str:
    return {"room": "rooms.csv", "equipment": "equipment.csv"}.get(column, "specialties.csv")


def _key(fault: TableFault, record: Record) -> list:
    return [int(word) if is_number(word) else word for word in (record.fields[place] for place in fault.table.key)]


def twice(fault: TableFault) -> Explanation:
    named = " and ".join(fault.table.columns[place].name for place in fault.table.key)
    earlier = [it for it in fault.records[1 : fault.record.row] if _key(fault, it) == _key(fault, fault.record)]
    if not earlier:
        raise Unlike
    mend = "keep one of the two records"
    if fault.file == "rooms.csv":
        mend += "; two sessions of a room on one day are one slot, so add their minutes, or name each session as a room"
    if fault.file == "specialties.csv":
        mend += "; a specialty on two wards is two specialties, each with a name of its own"
    here = f"line {earlier[0].line} says the same: {earlier[0].text}"
    return Explanation(fault.where, f"each {named} stands in one record", here, mend, delete(fault.file, fault.record))


def hours_order(fault: TableFault) -> Explanation:
    *others, low, high = fault.fields
    change = write(fault.file, fault.record, [*others, high, low])
    return Explanation(
        fault.where, "low is at most high", f"low is {low}, and high is {high}", "exchange them, or raise high", change
    )


def _owner(fault: TableFault, word: str) -> tuple[str, list[Record]]:
    """Whose chances a test on the whole file is about, and its records: the specialty's, or the block's."""
    if fault.file != BLOCK:
        names = fault.folder.specialties
        if not 1 <= fault.item <= len(names):
            raise Unlike
        word = names[fault.item - 1]
    return word, [it for it in fault.records[1:] if it.fields[0] == word]


def _rewritten(fault: TableFault, records: list[Record], chances: list[int]) -> Change:
    """The file with other chances in some records."""
    lines = fault.lines()
    for record, chance in zip(records, chances):
        lines[record.line - 1] = Record(record.row, record.line, [*record.fields[:2], str(chance)]).text
    return whole(fault.file, lines)


def _scaled(chances: list[int], whole: int) -> list[int]:
    """Chances that sum to the whole, in proportion to these."""
    total = max(sum(chances), 1)
    parts = [chance * whole // total for chance in chances]
    parts[parts.index(max(parts))] += whole - sum(parts)
    return parts


def _percent(
    fault: TableFault, records: list[Record], chances: list[int], where: str, rule: str, here: str
) -> Explanation:
    """Chances that were written in percent."""
    percent = fault.parts // 100
    change = _rewritten(fault, records, [it * percent for it in chances])
    return Explanation(where, rule, f"{here}: percent?", f"{percent} parts are one percent", change)


def _millionths(
    fault: TableFault, records: list[Record], chances: list[int], where: str, rule: str, here: str
) -> Explanation:
    """Chances in millionths where the settings say finer parts."""
    change = _rewritten(fault, records, [it * (FINE_PARTS // PARTS) for it in chances])
    mend = f"times 1000 they are in parts of {FINE_PARTS}; or let settings.toml have parts = {PARTS}"
    return Explanation(where, rule, f"{here}: millionths?", mend, change)


def chance_sum(fault: TableFault) -> Explanation:
    owner, records = _owner(fault, BLOCK_WORDS[0])
    chances, whole = [int(it.fields[2]) for it in records], fault.parts
    total = sum(chances)
    rule = f"the chances of {owner} over all numbers of patients sum to {whole}, since one of them always comes"
    where, here = (
        f"{fault.file}, the records of {owner}",
        f"they are {', '.join(map(str, chances)) or 'none'}, which is {total} together",
    )
    if not records:
        change = Change(fault.file, "add", len(fault.lines()), csv_line([owner, "1", str(whole)]))
        return Explanation(where, rule, here, "add a record for each number of patients that a block can have", change)
    if total == whole:
        raise Unlike
    if total == 100:
        return _percent(fault, records, chances, where, rule, here)
    if total == PARTS:
        return _millionths(fault, records, chances, where, rule, here)
    largest = max(records, key=lambda it: int(it.fields[2]))
    value, missing = int(largest.fields[2]) + whole - total, whole - total
    mend = f"{'add' if missing > 0 else 'take'} {abs(missing)} {'to' if missing > 0 else 'from'} some of them"
    if 0 <= value <= whole and 2 * abs(missing) < whole:
        return Explanation(where, rule, here, mend, write(fault.file, largest, [*largest.fields[:2], str(value)]))
    return Explanation(where, rule, here, mend, _rewritten(fault, records, _scaled(chances, whole)))


def stay_end(fault: TableFault) -> Explanation:
    owner, records = _owner(fault, BLOCK_WORDS[1])
    chances, whole = [int(it.fields[2]) for it in records], fault.parts
    rule = f"the last chance of {owner} is {whole}: on that day the last of those who are still there go home"
    where = f"{fault.file}, the records of {owner}"
    here = f"they are {', '.join(map(str, chances))}"
    if not records:
        change = Change(fault.file, "add", len(fault.lines()), csv_line([owner, "0", str(whole)]))
        return Explanation(
            where, rule, "there are none", f"add a record for each age from 0, the last with {whole}", change
        )
    if chances[-1] == whole:
        raise Unlike
    if chances[-1] == max(chances) == PARTS:
        return _millionths(fault, records, chances, where, rule, here)
    if len(chances) > 1 and sum(chances) in (whole, PARTS, 100):
        meant = of_those_there(chances, whole)
        mend = (
            "they sum to the whole, as shares of all patients do; each is the chance of those still there:"
            f" {', '.join(map(str, meant))}"
        )
        return Explanation(where, rule, here, mend, _rewritten(fault, records, meant))
    if chances[-1] == 100 and max(chances) == 100:
        return _percent(fault, records, chances, where, rule, here)
    mend = f"raise the last one to {whole}, or add the ages that are missing"
    return Explanation(where, rule, here, mend, write(fault.file, records[-1], [*records[-1].fields[:2], str(whole)]))


def stay_after_end(fault: TableFault) -> Explanation:
    ends = [it for it in fault.same(before=True) if int(it.fields[2]) == fault.parts]
    if not ends:
        raise Unlike
    rule = f"nothing follows the chance {fault.parts} of {fault.fields[0]}, since nobody is there any more"
    here = f"line {ends[0].line} has it: {ends[0].text}"
    mend = "delete what follows, or lower that chance to that of those who go home on that day"
    return Explanation(fault.where, rule, here, mend, delete(fault.file, fault.record))


def stay_order(fault: TableFault) -> Explanation:
    wanted = len(fault.same(before=True))
    if is_number(fault.fields[1]) and int(fault.fields[1]) == wanted:
        raise Unlike
    rule = "the ages of a specialty are 0, 1, 2 and so on in this order; 0 is the day of surgery"
    here = f"{fault.fields[0]} has {wanted} records before this one, so its age is {wanted} and not {fault.fields[1]}"
    mend = "give every age from 0 its record, also one on which nobody goes home (chance 0)"
    return Explanation(fault.where, rule, here, mend, fault.set(1, str(wanted)))


def no_record(fault: TableFault) -> Explanation:
    sample = ["Theatre 1", "1", "480"]
    if fault.file == "specialties.csv":
        ward = (fault.folder.settings()["watch"] or ["Ward A"])[0]
        sample = [(fault.folder.column("patients.csv", 0) or ["General surgery"])[0], ward, "16", "0", "1000000"]
    change = Change(fault.file, "add", max(len(fault.lines()), 1), csv_line(sample))
    return Explanation(
        f"{fault.file}", "it has at least one record", "it holds its header alone", "add the records", change
    )


def word(fault: TableFault) -> Explanation:
    if fault.fields[0] in BLOCK_WORDS:
        raise Unlike
    meant = nearest(fault.fields[0], list(BLOCK_WORDS)) or BLOCK_WORDS[0]
    return Explanation(
        fault.where,
        "kind is `patients` or `stay`",
        f"it is `{fault.fields[0]}`",
        "write one of the two",
        fault.set(0, meant),
    )


def too_long(fault: TableFault) -> Explanation:
    size = len(fault.folder.bytes_of(fault.file))
    if size <= LONGEST_TABLE:
        raise Unlike
    kept = [line for line in fault.lines() if line.strip(' ,;\t"')]
    here = f"it has {size} bytes in {len(fault.lines())} lines, of which {len(kept)} aren't empty"
    change = whole(fault.file, kept) if len(kept) < 1000 else None
    return Explanation(
        fault.file, f"a table has at most {LONGEST_TABLE} bytes", here, "delete empty rows, and what isn't used", change
    )


FAULTS: dict[str, Callable[[TableFault], Explanation]] = {
    "TooLong": too_long,
    "Range": range_of,
    "Header": header,
    "Columns": columns,
    "Number": number,
    "Name": name,
    "TooMany": too_many,
    "Unknown": unknown,
    "Twice": twice,
    "HoursOrder": hours_order,
    "ChanceSum": chance_sum,
    "StayEnd": stay_end,
    "StayAfterEnd": stay_after_end,
    "StayOrder": stay_order,
    "NoRecord": no_record,
    "Word": word,
}


def explain_table(folder: Folder, file: str, row: int, item: int, kind: str) -> Explanation:
    try:
        return TableFault(folder, file, row, item).explain(kind)
    except (Unlike, IndexError, ValueError, KeyError):
        raise Refused(
            f"{file} of this folder doesn't have that fault: was it changed since, or is it another folder?"
        ) from None
