"""The commands of a document, as a reader sees them: indented lines that begin with `$ `, each with what it says below
it."""
import os
import subprocess
from collections.abc import Iterator
from dataclasses import dataclass

INDENT = "    "
PROMPT = f"{INDENT}$ "
ELISION = ".."


@dataclass
class Step:
    """A command, the line of the document in which it stands, and the lines that it must say; `..` is any lines."""

    line: int
    command: str
    says: list[str]


def steps(text: str) -> Iterator[Step]:
    step = None
    for number, line in enumerate(text.splitlines(), 1):
        if line.startswith(PROMPT):
            if step:
                yield step
            step = Step(number, line.removeprefix(PROMPT), [])
        elif step and line.startswith(INDENT):
            step.says.append(line.removeprefix(INDENT))
        elif step:
            yield step
            step = None
    if step:
        yield step


def is_said(wanted: list[str], said: list[str]) -> bool:
    """Whether some lines are those that are wanted, where `..` stands for any."""
    if not wanted:
        return not said
    if wanted[0] == ELISION:
        return any(is_said(wanted[1:], said[at:]) for at in range(len(said) + 1))
    return bool(said) and said[0] == wanted[0] and is_said(wanted[1:], said[1:])


def said_until(end: str, output: Iterator[str]) -> list[str]:
    """The lines of an output up to the last one, which has a status: all that is told of a silent failure."""
    lines, status = [], "lost"
    for line in output:
        if line.startswith(end):
            status = line.removeprefix(end).strip()
            break
        lines.append(line.rstrip("\n"))
    while lines and not lines[-1]:
        lines.pop()
    return lines or ([] if status == "0" else [f"status {status}"])


def follow(text: str, folder: str, environment: dict[str, str]) -> Iterator[tuple[Step, list[str]]]:
    """Each command with what it said on standard output, one after the other in one shell, from a folder on.

    A command that begins with `cd examples/` or `mkdir` is meant from this folder, wherever the one before it went.
    """
    end = "== the end of a command =="
    shell = subprocess.Popen(
        ["bash"], cwd=folder, env=environment, stdin=subprocess.PIPE, stdout=subprocess.PIPE, text=True
    )
    with shell:
        for step in steps(text):
            back = f"cd '{folder}'; " if step.command.startswith(("cd examples/", "mkdir ")) else ""
            shell.stdin.write(f"{back}{step.command}\nprintf '\\n%s %s\\n' '{end}' \"$?\"\n")
            shell.stdin.flush()
            yield step, said_until(end, shell.stdout)
        shell.stdin.close()


def with_programs(folder: str) -> dict[str, str]:
    """The environment, with a folder of programs before all others on the path."""
    return {**os.environ, "PATH": f"{folder}{os.pathsep}{os.environ['PATH']}"}
