"""What breaks a rule in cycle.csv, and a change of one slot or an exchange of two that mends it."""
from collections.abc import Iterator

from planner.command import Refused
from planner.explanation import Change, Explanation
from planner.folder import Folder, csv_line
from planner.formats import CYCLE, RULES
from planner.hospital import Hospital, Option, read_cycle, read_hospital
from planner.rules import breaches, broken_rule

SHOWN = 5
MENDS = {
    1: "leave a closed slot out, or open it in rooms.csv; give a fixed slot what fixed.csv says, or free it there",
    2: "give the block another room, or take the record out of unsuited.csv",
    3: "give the block another day, or take the record out of barred.csv",
    4: "move a block to another day, or raise the units in equipment.csv",
    5: "move a block to another day, or raise daily in specialties.csv",
    6: "take a block away, or raise high in specialties.csv",
    7: "give it more blocks, or lower low in specialties.csv",
}

Cycle = list[Option]


def _changed(hospital: Hospital, cycle: Cycle, slots: list[int]) -> Iterator[Cycle]:
    """The cycles with another option in one of some slots."""
    for slot in slots:
        for name in [None, *hospital.specialties]:
            if name is None or hospital.could_take(name, hospital.slots[slot]) and hospital.slots[slot].minutes:
                yield [*cycle[:slot], name, *cycle[slot + 1 :]]


def _exchanged(cycle: Cycle, slots: list[int]) -> Iterator[Cycle]:
    """The cycles in which one of some slots has changed places with another."""
    for slot in slots:
        for other, name in enumerate(cycle):
            if name != cycle[slot]:
                made = cycle.copy()
                made[slot], made[other] = name, cycle[slot]
                yield made


def _badness(hospital: Hospital, cycle: Cycle) -> tuple[int, int]:
    """The larger the better a cycle is: the least rule that it breaks, and how little it breaks it."""
    rule = broken_rule(hospital, cycle)
    return (len(RULES) + 1, 0) if rule is None else (rule, -len(breaches(hospital, cycle, rule)))


def _better(hospital: Hospital, cycle: Cycle, slots: list[int]) -> Cycle | None:
    """The first legal cycle that is near, or else the best one that is better than this."""
    best, measure = None, _badness(hospital, cycle)
    for made in [*_exchanged(cycle, slots), *_changed(hospital, cycle, slots)]:
        of_made = _badness(hospital, made)
        if of_made > measure:
            best, measure = made, of_made
        if measure[0] > len(RULES):
            break
    return best


def _changes(folder: Folder, hospital: Hospital, cycle: Cycle, made: Cycle) -> list[Change]:
    """The lines of cycle.csv that make one cycle of another."""
    records = {(int(it.fields[0]), it.fields[1]): it for it in folder.rows(CYCLE)}
    end, found = len(folder.text(CYCLE).splitlines()), []
    for slot, old, new in zip(hospital.slots, cycle, made):
        if old != new:
            record, text = records.get((slot.day, slot.room)), csv_line([str(slot.day), slot.room, new or "-"])
            found.append(Change(CYCLE, "write", record.line, text) if record else Change(CYCLE, "add", end, text))
    return found


def explain_rule(folder: Folder, rule: int) -> Explanation:
    hospital = read_hospital(folder)
    cycle = read_cycle(folder, hospital)
    if rule not in MENDS or broken_rule(hospital, cycle) != rule:
        raise Refused(
            f"{CYCLE} of this folder doesn't break rule {rule} first: was a file changed since, or is it another"
            " folder?"
        )
    found = breaches(hospital, cycle, rule)
    more = f"; and {len(found) - SHOWN} more" if len(found) > SHOWN else ""
    here = "; ".join(breach.says for breach in found[:SHOWN]) + more
    made = _better(hospital, cycle, found[0].slots)
    example = _changes(folder, hospital, cycle, made) if made else None
    return Explanation(CYCLE, f"rule {rule}: {RULES[rule]}", here, MENDS[rule], example)
