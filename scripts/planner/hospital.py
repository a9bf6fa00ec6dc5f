"""What accepted tables say: a hospital with its slots, and the cycles over them."""
from dataclasses import dataclass

from planner.command import Refused
from planner.folder import Folder
from planner.formats import CYCLE, IDLE, PARTS

# what a slot holds: a specialty, or nothing where it is idle
Option = str | None


@dataclass(frozen=True)
class Specialty:
    """A specialty with its daily blocks, its minutes of a cycle, and its block."""

    name: str
    ward: str
    daily: int
    low: int
    high: int
    patients: dict[int, int]
    stays: list[int]


@dataclass(frozen=True)
class Slot:
    """A day and a room; minutes 0 where it is closed. Fixed slots hold what fixed.csv says."""

    day: int
    room: str
    minutes: int
    is_fixed: bool
    fixed: Option

    @property
    def place(self) -> str:
        return f"day {self.day}, {self.room}"


@dataclass(frozen=True)
class Hospital:
    settings: dict
    specialties: dict[str, Specialty]
    slots: list[Slot]
    units: dict[str, int]
    needs: dict[tuple[str, str], int]
    unsuited: set[tuple[str, str]]
    barred: set[tuple[str, int]]

    @property
    def days(self) -> int:
        return self.settings["days"]

    @property
    def parts(self) -> int:
        """The parts of its chances."""
        return self.settings.get("parts", PARTS)

    def allowance(self, ward: str) -> int:
        """The beds of a ward that are always taken."""
        allow = self.settings.get("allow", [])
        return dict(zip(self.settings["watch"], allow)).get(ward, 0)

    @property
    def rooms(self) -> list[str]:
        return list(dict.fromkeys(slot.room for slot in self.slots))

    @property
    def wards(self) -> list[str]:
        return list(dict.fromkeys(it.ward for it in self.specialties.values()))

    def could_take(self, name: str, slot: Slot) -> bool:
        """Whether a specialty fits a slot: by its room, its day, and what is fixed."""
        suits = (name, slot.room) not in self.unsuited and (name, slot.day) not in self.barred
        return suits and (not slot.is_fixed or slot.fixed == name)


def _specialties(folder: Folder) -> dict[str, Specialty]:
    found = {}
    for record in folder.rows("specialties.csv"):
        name, ward, daily, low, high = record.fields
        found[name] = Specialty(name, ward, int(daily), int(low), int(high), {}, [])
    for record in folder.rows("patients.csv"):
        name, count, chance = record.fields
        found[name].patients[int(count)] = int(chance)
    for record in folder.rows("stays.csv"):
        name, _, chance = record.fields
        found[name].stays.append(int(chance))
    return found


def option_of(word: str) -> Option:
    return None if word == IDLE else word


def _options(folder: Folder, name: str) -> dict[tuple[int, str], Option]:
    return {(int(day), room): option_of(word) for day, room, word in (it.fields for it in folder.rows(name))}


def _slots(folder: Folder, days: int) -> list[Slot]:
    minutes = {(int(day), room): int(word) for room, day, word in (it.fields for it in folder.rows("rooms.csv"))}
    fixed = _options(folder, "fixed.csv")
    places = [(day, room) for day in range(1, days + 1) for room in folder.rooms]
    return [Slot(*at, minutes.get(at, 0), at in fixed, fixed.get(at)) for at in places]


def read_hospital(folder: Folder) -> Hospital:
    """The hospital of a folder whose tables `mss` accepts."""
    try:
        settings = folder.settings()
        return Hospital(
            settings,
            _specialties(folder),
            _slots(folder, settings["days"]),
            {name: int(units) for name, units in (it.fields for it in folder.rows("equipment.csv"))},
            {(name, kind): int(units) for name, kind, units in (it.fields for it in folder.rows("needs.csv"))},
            {(name, room) for name, room in (it.fields for it in folder.rows("unsuited.csv"))},
            {(name, int(day)) for name, day in (it.fields for it in folder.rows("barred.csv"))},
        )
    except (ValueError, KeyError, TypeError, IndexError):
        raise Refused("the tables have a fault: `mss evaluate` names it, and explain says what would mend it") from None


def read_cycle(folder: Folder, hospital: Hospital) -> list[Option]:
    """What each slot holds in cycle.csv."""
    try:
        held = _options(folder, CYCLE)
    except ValueError:
        raise Refused(f"{CYCLE} has a fault: `mss evaluate` names it, and explain says what would mend it") from None
    return [held.get((slot.day, slot.room)) for slot in hospital.slots]
