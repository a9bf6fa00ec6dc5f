"""The rules of legal cycles (docs/MODEL.md), each as what breaks it."""
from collections.abc import Iterator
from dataclasses import dataclass

from planner.hospital import Hospital, Option


@dataclass(frozen=True)
class Breach:
    """One thing that breaks a rule, and the slots of which one could be changed to mend it."""

    says: str
    slots: list[int]


# what the first slots hold; the slots behind them are undecided
Prefix = list[Option]


def _closed_or_fixed(h: Hospital, prefix: Prefix) -> Iterator[Breach]:
    for at, (slot, name) in enumerate(zip(h.slots, prefix)):
        if slot.is_fixed and slot.fixed != name:
            yield Breach(f"{slot.place} holds {name or 'nothing'}, and fixed.csv says {slot.fixed or 'idle'}", [at])
        elif name and not slot.minutes:
            yield Breach(f"{slot.place} holds {name}, and rooms.csv gives it no minutes", [at])


def _unsuited(h: Hospital, prefix: Prefix) -> Iterator[Breach]:
    for at, (slot, name) in enumerate(zip(h.slots, prefix)):
        if name and (name, slot.room) in h.unsuited:
            yield Breach(f"{slot.place} holds {name}, and unsuited.csv says that {slot.room} doesn't suit it", [at])


def _barred(h: Hospital, prefix: Prefix) -> Iterator[Breach]:
    for at, (slot, name) in enumerate(zip(h.slots, prefix)):
        if name and (name, slot.day) in h.barred:
            yield Breach(f"{slot.place} holds {name}, and barred.csv bars it on day {slot.day}", [at])


def _on_day(h: Hospital, prefix: Prefix, day: int) -> list[int]:
    """The slots of a day that hold a block."""
    return [at for at, (slot, name) in enumerate(zip(h.slots, prefix)) if name and slot.day == day]


def _equipment(h: Hospital, prefix: Prefix) -> Iterator[Breach]:
    for day in range(1, h.days + 1):
        for kind, units in h.units.items():
            using = [at for at in _on_day(h, prefix, day) if h.needs.get((prefix[at], kind), 0)]
            taken = sum(h.needs[prefix[at], kind] for at in using)
            if taken > units:
                names = ", ".join(f"{prefix[at]} in {h.slots[at].room}" for at in using)
                yield Breach(f"day {day} needs {taken} of {kind}, and there are {units}: {names}", using)


def _daily(h: Hospital, prefix: Prefix) -> Iterator[Breach]:
    for day in range(1, h.days + 1):
        for it in h.specialties.values():
            having = [at for at in _on_day(h, prefix, day) if prefix[at] == it.name]
            if len(having) > it.daily:
                rooms = ", ".join(h.slots[at].room for at in having)
                yield Breach(
                    f"{it.name} has {len(having)} blocks on day {day}, and its daily number is {it.daily}: {rooms}",
                    having,
                )


def _minutes(h: Hospital, prefix: Prefix, name: str) -> int:
    return sum(slot.minutes for slot, held in zip(h.slots, prefix) if held == name)


def _high(h: Hospital, prefix: Prefix) -> Iterator[Breach]:
    for it in h.specialties.values():
        minutes = _minutes(h, prefix, it.name)
        if minutes > it.high:
            having = [at for at, name in enumerate(prefix) if name == it.name]
            yield Breach(
                f"{it.name} has {minutes} minutes in {len(having)} blocks, and its high minutes are {it.high}", having
            )


def _low(h: Hospital, prefix: Prefix) -> Iterator[Breach]:
    behind = h.slots[len(prefix) :]
    for it in h.specialties.values():
        minutes = _minutes(h, prefix, it.name)
        left = sum(slot.minutes for slot in behind if h.could_take(it.name, slot))
        if minutes + left < it.low:
            still = f" and can get {left} more" if behind else ""
            others = [at for at, name in enumerate(prefix) if name != it.name and h.could_take(it.name, h.slots[at])]
            yield Breach(f"{it.name} has {minutes} minutes{still}, and its low minutes are {it.low}", others)


def _total(h: Hospital, prefix: Prefix) -> Iterator[Breach]:
    left = sum(slot.minutes for slot in h.slots[len(prefix) :])
    missing = sum(max(0, it.low - _minutes(h, prefix, it.name)) for it in h.specialties.values())
    if missing > left:
        yield Breach(f"the specialties miss {missing} low minutes together, and the slots behind have {left}", [])


_BREACHES = [_closed_or_fixed, _unsuited, _barred, _equipment, _daily, _high, _low, _total]


def breaches(hospital: Hospital, prefix: Prefix, rule: int) -> list[Breach]:
    return list(_BREACHES[rule - 1](hospital, prefix))


def broken_rule(hospital: Hospital, prefix: Prefix) -> int | None:
    """The least rule that a prefix breaks."""
    for rule in range(1, len(_BREACHES) + 1):
        if next(_BREACHES[rule - 1](hospital, prefix), None):
            return rule
    return None
