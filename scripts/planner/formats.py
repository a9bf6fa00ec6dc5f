"""The files, faults, rules and reasons of docs/FORMATS.md, as data."""
from dataclasses import dataclass

# the parts of chances: those of version 1, and the finer ones that version 2 may have
PARTS = 1_000_000
FINE_PARTS = 1_000_000_000
# the millionths of a level
LEVELS = 1_000_000
MOST_ALLOWANCE = 1_000
LONGEST_TABLE = 4_194_304
LONGEST_CERTIFICATE = 67_108_864
LONGEST_WEIGHTS = 1_048_576
MOST_LEVELS = 8
LONGEST_NAME = 60
MOST_AGE = 59
MOST_PATIENTS = 16
IDLE = "-"

SETTINGS = "settings.toml"
CYCLE = "cycle.csv"
BLOCK = "block.csv"
CERTIFICATE = "certificate.txt"
WEIGHTS = "weights.txt"

# the days and the parts of the settings, as the most of a field
DAYS = -1
CHANCE = -2


@dataclass(frozen=True)
class Field:
    """One column: its name, what it holds, and for a number the least and the most."""

    name: str
    holds: str  # name, option (a name, or - for idle), number, or word
    least: int = 0
    most: int = 0
    must_be_known: bool = False


@dataclass(frozen=True)
class Table:
    """One comma separated file: its columns, and those that make the key by which a record may stand once."""

    columns: tuple[Field, ...]
    key: tuple[int, ...]

    @property
    def header(self) -> list[str]:
        return [column.name for column in self.columns]


def _named(name: str, *, known: bool = True) -> Field:
    return Field(name, "name", must_be_known=known)


_DAY = Field("day", "number", 1, DAYS)
_CHANCE = Field("chance", "number", 0, CHANCE)
_UNITS = Field("units", "number", 0, 1_000)
_SLOTS = Table((_DAY, _named("room"), Field("specialty", "option", must_be_known=True)), (0, 1))

TABLES = {
    "rooms.csv": Table((_named("room", known=False), _DAY, Field("minutes", "number", 0, 1_440)), (0, 1)),
    "specialties.csv": Table(
        (
            _named("specialty", known=False),
            _named("ward", known=False),
            Field("daily", "number", 0, 16),
            Field("low", "number", 0, 1_000_000),
            Field("high", "number", 0, 1_000_000),
        ),
        (0,),
    ),
    "patients.csv": Table((_named("specialty"), Field("patients", "number", 0, MOST_PATIENTS), _CHANCE), (0, 1)),
    "stays.csv": Table((_named("specialty"), Field("age", "number", 0, MOST_AGE), _CHANCE), (0, 1)),
    "equipment.csv": Table((_named("equipment", known=False), _UNITS), (0,)),
    "needs.csv": Table((_named("specialty"), _named("equipment"), _UNITS), (0, 1)),
    "unsuited.csv": Table((_named("specialty"), _named("room")), (0, 1)),
    "fixed.csv": _SLOTS,
    "barred.csv": Table((_named("specialty"), _DAY), (0, 1)),
    BLOCK: Table(
        (Field("kind", "word"), Field("number", "number", 0, MOST_AGE), Field("chance", "number", 0, PARTS)), (0, 1)
    ),
    CYCLE: _SLOTS,
}
BLOCK_WORDS = ("patients", "stay")

# the settings by their items, those of version 2 alone at the end, with a value that can stand for one that is missing
FIRST_KEYS = ["version", "days", "level", "report", "watch", "budget"]
LATER_KEYS = ["parts", "allow"]
SETTING_KEYS = [*FIRST_KEYS, *LATER_KEYS]
SETTING_TYPES = {key: "an integer" for key in SETTING_KEYS} | {
    "report": "an array of integers",
    "watch": "an array of strings",
    "allow": "an array of integers",
}
SETTING_SAMPLES = {
    "version": 1,
    "days": 14,
    "level": 900_000,
    "report": [500_000, 900_000],
    "watch": [],
    "budget": 2_000,
}
SETTING_RANGES = {"days": (1, 28), "budget": (1, 20_000)}

MOST_NAMES = {"rooms.csv": 16, "specialties.csv": 24, "equipment.csv": 8}
MOST_WARDS = 8

KINDS = [
    *"TooLong Toml Key Version Range Level Watch Header Columns Number Name TooMany Unknown Twice HoursOrder".split(),
    *"ChanceSum StayEnd StayAfterEnd StayOrder NoRecord Word".split(),
]

RULES = {
    1: "a slot of 0 minutes is idle, and a fixed slot holds what is fixed",
    2: "no specialty has a room that is unsuited for it",
    3: "no specialty has a day that is barred for it",
    4: "the blocks of a day need no more of a kind of equipment than there is",
    5: "no specialty has more blocks on a day than its daily number",
    6: "no specialty has more than its high minutes",
    7: "each specialty can still reach its low minutes",
    8: "all specialties together miss no more low minutes than the slots behind have",
}
