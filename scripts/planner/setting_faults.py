"""Faults of settings.toml, and the settings that would be accepted."""
import json
import re
import tomllib
from fractions import Fraction

from planner.command import Refused
from planner.explanation import Change, Explanation, whole
from planner.folder import Folder
from planner.formats import (
    FINE_PARTS,
    FIRST_KEYS,
    LATER_KEYS,
    LEVELS,
    LONGEST_TABLE,
    MOST_ALLOWANCE,
    MOST_LEVELS,
    MOST_WARDS,
    PARTS,
    SETTING_KEYS,
    SETTING_RANGES,
    SETTING_SAMPLES,
    SETTING_TYPES,
    SETTINGS,
)
from planner.meant import is_number, nearest

Settings = dict[str, object]


def _is_integer(value: object) -> bool:
    return isinstance(value, int) and not isinstance(value, bool)


def _is_of_type(key: str, value: object) -> bool:
    if key not in ("report", "watch", "allow"):
        return _is_integer(value)
    wanted = _is_integer if key != "watch" else lambda it: isinstance(it, str)
    return isinstance(value, list) and all(map(wanted, value))


def _whole_number(key: str, value: object) -> int | None:
    """The whole number that a value of another type may mean; a level below 1 is a share."""
    try:
        number = Fraction(str(value).strip().rstrip("%"))
    except (ValueError, ZeroDivisionError):
        return None
    is_level = key in ("level", "report")
    if is_level and "%" in str(value):
        return round(number * LEVELS / 100)
    return round(number * LEVELS) if is_level and number < 1 else round(number)


def _meant(key: str, value: object) -> object:
    """The value of a key's type that another value may mean; None where that can't be guessed."""
    if key not in ("report", "watch", "allow"):
        return _whole_number(key, value)
    items = value if isinstance(value, list) else [value]
    if key == "watch":
        return [it for it in items if isinstance(it, str)]
    return [it for it in (_whole_number(key, item) for item in items) if it is not None]


def _as_lines(settings: Settings) -> list[str]:
    return [f"{key} = {json.dumps(settings[key], ensure_ascii=False)}" for key in SETTING_KEYS if key in settings]


def _salvaged(text: str) -> Settings:
    """What can be read of settings line by line."""
    found: Settings = {}
    for line in text.splitlines():
        key, _, value = line.partition("=")
        try:
            found |= tomllib.loads(line)
        except tomllib.TOMLDecodeError:
            words = [word.strip(" \"'") for word in re.sub(r"[\[\]]", "", value).split(",")]
            if key.strip() in SETTING_KEYS:
                found[key.strip()] = [word for word in words if word]
    return found


def _level(value: int) -> int:
    return min(max(value, 1), LEVELS - 1)


def _parts_meant(folder: Folder) -> int:
    """The parts that the chances are in: the finer ones where patients.csv has a chance that they alone can have."""
    rows = folder.rows("patients.csv") if folder.has("patients.csv") else []
    chances = [int(it.fields[2]) for it in rows if len(it.fields) > 2 and is_number(it.fields[2])]
    return FINE_PARTS if max(chances, default=0) > PARTS else PARTS


def _allowances(values: Settings, watched: int) -> list[int]:
    """An allowance for each watched ward: those that are given, within their range, and 0 for the others."""
    given = values["allow"] if _is_of_type("allow", values["allow"]) else _meant("allow", values["allow"])
    return [min(max(it, 0), MOST_ALLOWANCE) for it in [*given, *[0] * watched][:watched]]


def _with_values(folder: Folder, values: Settings) -> Settings:
    """Settings that are accepted: these as far as they can be, and samples for the others. They are of version 2 where they
    say so or have a key of it."""
    settings = {
        key: values.get(key) if _is_of_type(key, values.get(key)) else _meant(key, values.get(key))
        for key in FIRST_KEYS
    }
    settings = {key: SETTING_SAMPLES[key] if value is None else value for key, value in settings.items()}
    is_later = settings["version"] == 2 or any(key in values for key in LATER_KEYS)
    settings["version"], settings["level"] = 2 if is_later else 1, _level(settings["level"])
    for key, (least, most) in SETTING_RANGES.items():
        settings[key] = min(max(settings[key], least), most)
    settings["report"] = [_level(it) for it in settings["report"][:MOST_LEVELS]] or [settings["level"]]
    wards = folder.wards if folder.has("specialties.csv") else []
    named = [name if name in wards else nearest(name, wards) for name in settings["watch"]]
    settings["watch"] = list(dict.fromkeys(name for name in named if name))[:MOST_WARDS] or wards[:MOST_WARDS]
    if is_later:
        is_good = _is_integer(values.get("parts")) and values["parts"] in (PARTS, FINE_PARTS)
        settings["parts"] = values["parts"] if is_good else _parts_meant(folder)
    if "allow" in values:
        settings["allow"] = _allowances(values, len(settings["watch"]))
    return settings


def finer_settings(folder: Folder) -> Change:
    """The settings with finer parts of chances."""
    return _change(folder, folder.settings() | {"version": 2, "parts": FINE_PARTS})


def _later_key(key: str) -> str | None:
    """The key of version 2 that an unknown one may mean."""
    return next((it for it in LATER_KEYS if it.rstrip("s") in key.lower()), None)


def _change(folder: Folder, values: Settings) -> Change:
    """The whole file with settings that are accepted."""
    return whole(SETTINGS, _as_lines(_with_values(folder, values)))


def _of_key(folder: Folder, item: int, values: Settings) -> Explanation:
    if not item:
        unknown = [key for key in values if key not in SETTING_KEYS]
        missing = [key for key in FIRST_KEYS if key not in values]
        for key in unknown:
            meant = nearest(key, missing) or _later_key(key)
            if meant and meant not in values:
                values[meant] = values[key]
        rule = f"the keys are {', '.join(FIRST_KEYS)}, in version 2 also {' and '.join(LATER_KEYS)}, and no others"
        return Explanation(
            SETTINGS,
            rule,
            f"`{unknown[0]}` is none of them",
            "write the key as it is here, or delete its line",
            _change(folder, values),
        )
    key = SETTING_KEYS[item - 1]
    here = f"it is {json.dumps(values[key], ensure_ascii=False, default=str)}" if key in values else "it is missing"
    if key in LATER_KEYS and key in values and values.get("version") == 1:
        mend = f"write version = 2{_with_parts(key, values)}, or delete the line of {key}"
        return Explanation(
            f"{SETTINGS}, key {key}", f"version 1 has no key {key}", here, mend, _change(folder, values)
        )
    extra = " A level is in millionths: 90% is 900000." if key in ("level", "report") else ""
    mend = f"write a line `{key} = ..` with such a value.{extra}"
    told = f"{key} is {SETTING_TYPES[key]}" + (", which version 2 must have" if key == "parts" else "")
    return Explanation(f"{SETTINGS}, key {key}", told, here, mend, _change(folder, values))


def _with_parts(key: str, values: Settings) -> str:
    """What version 2 asks for beside a key."""
    return "" if key == "parts" or "parts" in values else f" and parts = {PARTS}"


def _of_value(folder: Folder, item: int, kind: str, values: Settings) -> Explanation:
    key = SETTING_KEYS[item - 1]
    least, most = SETTING_RANGES.get(key, (1, LEVELS - 1))
    ranges = {
        "parts": f"parts is {PARTS} or {FINE_PARTS}",
        "allow": f"allow has a number from 0 to {MOST_ALLOWANCE} for each ward of watch, in the order of watch",
    }
    rules = {
        "Version": "version is 1 or 2",
        "Range": ranges.get(key, f"{key} is from {least} to {most}"),
        "Level": f"a level is from 1 to {LEVELS - 1} millionths" + (
            f", and report has 1 to {MOST_LEVELS} of them" if key == "report" else ""
        ),
        "Watch": f"watch names 1 to {MOST_WARDS} wards",
        "Twice": "watch names each ward once",
        "Unknown": f"watch names wards of specialties.csv, letter by letter: {', '.join(folder.wards)}",
    }
    here = f"it is {json.dumps(values[key], ensure_ascii=False)}"
    if key == "allow":
        here += f", and watch names {len(values['watch'])}"
    return Explanation(
        f"{SETTINGS}, key {key}", rules[kind], here, "write a value that keeps the rule", _change(folder, values)
    )


def _toml_fault(text: str) -> str:
    """Why a text isn't TOML as `mss` reads it."""
    if any("\ud800" <= it <= "\udfff" for it in text):
        return "it isn't UTF-8"
    try:
        tomllib.loads(text)
    except tomllib.TOMLDecodeError as error:
        return str(error)
    return "a number has more than 64 bits"


def _of_form(folder: Folder, kind: str, text: str) -> Explanation:
    if kind == "TooLong":
        size = len(folder.bytes_of(SETTINGS))
        return Explanation(
            SETTINGS,
            f"it has at most {LONGEST_TABLE} bytes",
            f"it has {size}",
            "keep its keys alone",
            _change(folder, {}),
        )
    mend = "write each key as `key = value`, words in quotes and lists in brackets"
    return Explanation(SETTINGS, "it is TOML, in UTF-8", _toml_fault(text), mend, _change(folder, _salvaged(text)))


def explain_settings(folder: Folder, item: int, kind: str) -> Explanation:
    text = folder.text(SETTINGS)
    if kind in ("TooLong", "Toml"):
        return _of_form(folder, kind, text)
    try:
        values = tomllib.loads(text)
        if repr(_with_values(folder, values)) == repr({key: values[key] for key in SETTING_KEYS if key in values} | values):
            raise KeyError
        return _of_key(folder, item, values) if kind == "Key" else _of_value(folder, item, kind, values)
    except (tomllib.TOMLDecodeError, IndexError, KeyError):
        raise Refused(
            f"{SETTINGS} of this folder doesn't have that fault: was it changed since, or is it another folder?"
        ) from None
