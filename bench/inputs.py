"""What the scripts of bench/ run on: the programs, and folders of files with the words of a command, each the smallest that
shows its command at work. They are those of the worked cases."""
import os
import shutil
import subprocess
import sys
from typing import NamedTuple

TOP = os.path.dirname(os.path.dirname(os.path.abspath(__file__)))
MSS = os.environ.get("MSS", f"{TOP}/bin/mss")
MSS_IMPROVE = os.environ.get("MSS_IMPROVE", f"{TOP}/bin/mss_improve")
PROGRAMS = {"mss": os.path.abspath(MSS), "mss_improve": os.path.abspath(MSS_IMPROVE)}
DATA = f"{TOP}/crates/mss_cases/data"

TABLES = ["settings.toml"] + [
    f"{name}.csv" for name in "rooms specialties patients stays equipment needs unsuited fixed barred".split()
]
# the file that a put writes first
UNFINISHED = "mss.unfinished"

# weights that are accepted under the tables of sets/four_slots (docs/FORMATS.md has them)
WEIGHTS = b"mss weights 1\nnumber 2 power 3000 reach 2839\nplaces 1 1\nblocks 5990\nslots\nkinds\n"


class Input(NamedTuple):
    """A program, the words of a command, and the folder that it runs in."""

    program: str
    words: list
    folder: str

    @property
    def path(self):
        return PROGRAMS[self.program]

    @property
    def puts(self):
        return puts_of(self.program, self.words)

    @property
    def name(self):
        return " ".join([self.program, *self.words])


def checks_weights():
    """Whether mss_improve knows weights: it puts weights.txt, and has the command check."""
    if not os.path.exists(MSS_IMPROVE):
        return False
    return b" check" in subprocess.run([MSS_IMPROVE], capture_output=True, check=False).stdout


HAS_WEIGHTS = checks_weights()
IMPROVED = ["improved.csv", "weights.txt"] if HAS_WEIGHTS else ["improved.csv"]


def puts_of(program, words):
    """The files that a command puts, in their order."""
    first = words[0] if words else ""
    if program == "mss_improve":
        return IMPROVED if first in ("cycle", "new") else []
    return {"plan": ["planned.csv", "certificate.txt"], "generate": TABLES}.get(first, [])


INPUTS = [
    Input("mss", ["block"], "block"),
    Input("mss", ["evaluate"], "one_block"),
    Input("mss", ["evaluate", "json"], "one_block"),
    Input("mss", ["evaluate"], "finer"),
    Input("mss", ["plan"], "four_slots"),
    Input("mss", ["plan"], "taken_beds"),
    Input("mss", ["plan", "alike"], "alike_rooms"),
    Input("mss", ["check"], "four_slots"),
    Input("mss", ["check", "alike"], "alike_rooms"),
    Input("mss", ["generate", "7", "small"], "four_slots"),
    Input("mss_improve", ["cycle", "1", "50"], "one_block"),
    Input("mss_improve", ["cycle", "1", "50"], "two_wards"),
    Input("mss_improve", ["new", "7", "20"], "four_slots"),
]
if HAS_WEIGHTS:
    INPUTS.append(Input("mss_improve", ["check"], "four_slots"))


def fill(folder, name):
    """Makes the folder hold these files, and what the commands read or replace where it has none of it."""
    shutil.rmtree(folder, ignore_errors=True)
    shutil.copytree(f"{DATA}/sets/{name}", folder)
    certificate = f"{DATA}/texts/{name}_certificate.txt"
    if os.path.exists(certificate):
        shutil.copy(certificate, f"{folder}/certificate.txt")
        write(f"{folder}/planned.csv", b"day,room,specialty\n2,A,X\n2,B,X\n")
    if name == "four_slots":
        write(f"{folder}/weights.txt", WEIGHTS)
    if name in ("four_slots", "one_block"):
        write(f"{folder}/improved.csv", b"day,room,specialty\n1,A,-\n")


def write(path, content):
    with open(path, "wb") as file:
        file.write(content)


def holds(folder):
    """The bytes of each file of a folder, by its name."""
    found = {}
    for name in sorted(os.listdir(folder)):
        path = f"{folder}/{name}"
        if os.path.isfile(path):
            with open(path, "rb") as file:
                found[name] = file.read()
        else:
            found[name] = None
    return found


def asked(script):
    """What `SCRIPT FOLDER [mss_improve] WORD..` asks for, or all inputs where there are no words."""
    words = sys.argv[1:]
    if not words:
        return INPUTS
    if len(words) == 1 or not os.path.isdir(words[0]):
        print(script.strip())
        sys.exit(1)
    program = words.pop(1) if words[1] in PROGRAMS else "mss"
    return [Input(program, words[1:], os.path.abspath(words[0]))]


def put_in(folder, given):
    """Makes the folder hold what an input has: a set of the worked cases, or a copy of a folder."""
    if os.path.isabs(given):
        shutil.rmtree(folder, ignore_errors=True)
        shutil.copytree(given, folder)
    else:
        fill(folder, given)


def are_known(found, before, after, puts):
    """Whether the files are as before, but for the first few of those that are put, which are as a whole run leaves them."""
    others = {name: content for name, content in found.items() if name not in puts and name != UNFINISHED}
    if others != {name: content for name, content in before.items() if name not in puts and name != UNFINISHED}:
        return False
    is_put = True
    for name in puts:
        if is_put and found.get(name) == after.get(name):
            continue
        is_put = False
        if found.get(name) != before.get(name):
            return False
    return True
