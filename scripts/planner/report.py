"""The report of `mss evaluate json`."""
import json
from dataclasses import dataclass

from planner.command import Refused


@dataclass(frozen=True)
class Pair:
    """A percentile of the census: it lies between the two numbers."""

    level: int
    low: int
    high: int


@dataclass(frozen=True)
class Peak:
    ward: int
    day: int
    low: int
    high: int


@dataclass(frozen=True)
class Ward:
    """A ward, and for each of its days the percentiles of the census by rising level."""

    name: str
    days: list[list[Pair]]


@dataclass(frozen=True)
class Report:
    level: int
    peak: Peak
    wards: list[Ward]

    @property
    def days(self) -> int:
        return len(self.wards[0].days)

    @property
    def allowance(self) -> int | None:
        """The beds of the peak's ward that are always taken: those of the peak beside the patients of its day. None where the
        level of the peak isn't reported."""
        for pair in self.wards[self.peak.ward - 1].days[self.peak.day - 1]:
            if pair.level == self.level:
                return self.peak.high - pair.high
        return None

    @property
    def levels(self) -> list[int]:
        return [pair.level for pair in self.wards[0].days[0]]


def percent(level: int) -> str:
    return f"{level / 10_000:g}%"


def _numbers(value: object, keys: list[str]) -> list[int]:
    """The members of an object with these keys, all of which are whole numbers."""
    numbers = [value[key] for key in keys]
    if not all(isinstance(it, int) and not isinstance(it, bool) for it in numbers):
        raise ValueError
    return numbers


def _pairs(day: dict) -> list[Pair]:
    """The percentiles of a day's census; a level that is reported twice counts once."""
    found = [Pair(*_numbers(pair, ["level", "low", "high"])) for pair in day["census"]["pairs"]]
    return sorted({pair.level: pair for pair in found}.values(), key=lambda pair: pair.level)


def _ward(value: dict) -> Ward:
    if not isinstance(value["name"], str):
        raise ValueError
    return Ward(value["name"], [_pairs(day) for day in value["days"]])


def _report(value: dict) -> Report:
    version, days, level = _numbers(value, ["version", "days", "level"])
    report = Report(
        level, Peak(*_numbers(value["peak"], ["ward", "day", "low", "high"])), [_ward(it) for it in value["wards"]]
    )
    levels = [[pair.level for pair in day] for ward in report.wards for day in ward.days]
    is_whole = version == 1 and days > 0 and all(len(ward.days) == days for ward in report.wards)
    if not is_whole or not levels[0] or any(it != levels[0] for it in levels):
        raise ValueError
    if not 1 <= report.peak.ward <= len(report.wards) or not 1 <= report.peak.day <= days:
        raise ValueError
    return report


def read_report(content: bytes) -> Report:
    """The report of a text of `mss evaluate json`."""
    if b" refused: " in content[:40]:
        raise Refused(f"the input isn't a report: {content.decode('utf-8', 'replace').splitlines()[0]}")
    try:
        return _report(json.loads(content.decode("utf-8")))
    except (ValueError, TypeError, KeyError, IndexError, AttributeError, RecursionError):
        raise Refused("the input isn't a report of `mss evaluate json`") from None
