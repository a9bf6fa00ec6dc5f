"""Hospitals drawn from a number: the ten tables of each as texts by the names of their files.

The sizes `small`, `middle` and `large` are those of `mss generate`, formed anew from docs/FORMATS.md, byte for byte. The
other sizes have the same draws with other counts, and then other minutes: in the `tight` and `full` ones the specialties
ask for about nine tenths of all minutes, and get at most two blocks more than they ask for; in the `alike` ones the
first rooms suit all specialties; the `allow` ones are those of the `tight` ones in finer chances, with some beds of each ward
always taken.
"""
import os
import re

DAYS, ROOMS, SPECIALTIES, WARDS, BUDGET, ASKS = range(6)
SIZES = {
    "small": (5, 2, 3, 2, 200, False),
    "middle": (7, 3, 5, 2, 400, False),
    "large": (14, 6, 8, 3, 200, False),
    "huge": (28, 16, 24, 8, 200, False),
    "fifty": (10, 5, 6, 2, 2000, False),
    # small enough to list all cycles
    "tiny": (4, 2, 3, 2, 20000, False),
    "tight6": (3, 2, 3, 2, 20000, True),
    "tight8": (4, 2, 3, 2, 20000, True),
    "tight9": (3, 3, 3, 1, 20000, True),
    "allow6": (3, 2, 3, 2, 20000, True),
    "allow8": (4, 2, 3, 2, 20000, True),
    # of a real size
    "full-middle": (7, 3, 5, 2, 2000, True),
    "full-large": (14, 6, 8, 3, 2000, True),
    "full-huge": (28, 16, 24, 8, 2000, True),
    # every specialty alike, whatever the number
    "even": (14, 12, 12, 3, 2000, True),
    # rooms that suit all specialties: all of them, or four of five
    "all-alike": (2, 4, 3, 2, 20000, False),
    "four-alike": (2, 5, 3, 2, 20000, False),
}
ALIKE = {"all-alike": 4, "four-alike": 4}
# the most beds of a ward that are always taken
ALLOW = {"allow6": 5, "allow8": 5}

PARTS, FINE_PARTS = 10**6, 10**9


class Draws:
    """Numbers that look drawn, one after the other from a first one."""

    def __init__(self, number):
        self.word = number

    def __call__(self, below):
        self.word = (self.word * 6364136223846793005 + 1442695040888963407) % 2**64
        return (self.word >> 33) % below


def text(header, rows):
    return "".join(",".join(map(str, row)) + "\n" for row in [[header], *rows])


def open_days(days):
    return [day for day in range(1, days + 1) if (day - 1) % 7 < 5]


def asked(draws, blocks, count):
    """How many of so many blocks each specialty asks for: nine tenths in all, dealt one by one."""
    asks = [0] * count
    for _ in range(blocks * 9 // 10):
        asks[draws(count)] += 1
    return asks


def draw(number, size):
    """The ten tables that a number gives: a text for each file."""
    return even() if size == "even" else drawn(number, size)


def drawn(number, size):
    days, rooms, specialties, wards, budget, asks = SIZES[size]
    draws = Draws(number)
    rows = {name: [] for name in ["specialties", "patients", "stays", "needs", "barred", "unsuited"]}
    for j in range(1, specialties + 1):
        name = f"S{j}"
        first, one, other = 2 + draws(4), draws(500001), draws(500001)
        rows["patients"] += [[name, first, one], [name, first + 1, other], [name, first + 2, 1000000 - one - other]]
        ages = 1 + draws(6)
        rows["stays"] += [[name, age, draws(500001)] for age in range(ages - 1)] + [[name, ages - 1, 1000000]]
        daily, low, high = 1 + draws(2), 480 * draws(2), 960 + 480 * draws(4)
        rows["specialties"].append([name, f"W{(j - 1) % wards + 1}", daily, low, high])
        if draws(3) == 0:
            rows["needs"].append([name, "Scope", 1])
        if draws(2) == 0:
            rows["barred"].append([name, 1 + draws(days)])
        unsuited = [room for room in range(2, rooms + 1) if draws(5) == 0]
        rows["unsuited"] += [[name, f"R{room}"] for room in unsuited if room > ALIKE.get(size, 0)]
    units = 1 + draws(2)
    if asks:
        blocks = len(open_days(days)) * rooms
        for row, ask in zip(rows["specialties"], asked(draws, blocks, specialties)):
            # the daily number is large enough to have them
            row[2] = max(row[2], 1 + -(-ask // len(open_days(days))))
            row[3:] = [480 * ask, 480 * (ask + 2)]
        units = rooms
    opened = [[f"R{room}", day, 480] for room in range(1, rooms + 1) for day in open_days(days)]
    files = texts(days, min(wards, specialties), budget, opened, units, rows)
    return finer(files, rows, draws, ALLOW[size]) if size in ALLOW else files


def finer(files, rows, draws, most):
    """The files in finer chances, each a little beside the one that was drawn, and with beds that are always taken. The wards are
    watched in falling order."""
    patients, stays = [list(row) for row in rows["patients"]], [list(row) for row in rows["stays"]]
    for at in range(0, len(patients), 3):
        one, other, last = patients[at : at + 3]
        for row in (one, other):
            row[2] = max(row[2] * 1000 - draws(1000), 0)
        last[2] = FINE_PARTS - one[2] - other[2]
    for row in stays:
        row[2] = FINE_PARTS if row[2] == PARTS else row[2] * 1000 + draws(1000)
    wards = sorted({row[1] for row in rows["specialties"]}, reverse=True)
    watch = ", ".join(f'"{ward}"' for ward in wards)
    settings = files["settings.toml"].replace("version = 1\n", "version = 2\n")
    settings = re.sub(r"(?m)^watch = .*$", f"watch = [{watch}]", settings)
    settings += f"parts = {FINE_PARTS}\nallow = {[draws(most + 1) for _ in wards]}\n"
    return files | {
        "settings.toml": settings,
        "patients.csv": text("specialty,patients,chance", patients),
        "stays.csv": text("specialty,age,chance", stays),
    }


def even():
    days, rooms, count, wards, budget, _ = SIZES["even"]
    names = [f"S{j}" for j in range(1, count + 1)]
    patients = [0, 0, 0, 250000, 490000, 250000, 0, 0, 10000]
    rows = {
        "specialties": [[name, f"W{j % wards + 1}", 3, 3840, 7680] for j, name in enumerate(names)],
        "patients": [[name, count, chance] for name in names for count, chance in enumerate(patients)],
        "stays": [[name, age, 200000 if age < 13 else 1000000] for name in names for age in range(14)],
        "needs": [],
        "unsuited": [],
        "barred": [],
    }
    opened = [[f"R{room}", day, 480] for room in range(1, rooms + 1) for day in open_days(days)]
    return texts(days, wards, budget, opened, rooms, rows)


def texts(days, wards, budget, opened, units, rows):
    watch = ", ".join(f'"W{ward}"' for ward in range(1, wards + 1))
    settings = {"version": 1, "days": days, "level": 900000, "report": "[500000, 900000]", "watch": f"[{watch}]", "budget": budget}
    return {
        "settings.toml": "".join(f"{key} = {value}\n" for key, value in settings.items()),
        "rooms.csv": text("room,day,minutes", opened),
        "specialties.csv": text("specialty,ward,daily,low,high", rows["specialties"]),
        "patients.csv": text("specialty,patients,chance", rows["patients"]),
        "stays.csv": text("specialty,age,chance", rows["stays"]),
        "equipment.csv": text("equipment,units", [["Scope", units]]),
        "needs.csv": text("specialty,equipment,units", rows["needs"]),
        "unsuited.csv": text("specialty,room", rows["unsuited"]),
        "fixed.csv": text("day,room,specialty", []),
        "barred.csv": text("specialty,day", rows["barred"]),
    }


def write(folder, files):
    os.makedirs(folder, exist_ok=True)
    for name, content in files.items():
        with open(f"{folder}/{name}", "w", encoding="utf-8", newline="") as file:
            file.write(content)
