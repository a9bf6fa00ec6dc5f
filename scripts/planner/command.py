"""How every script begins and ends: --help, one clear line on standard error, and the status."""
import os
import sys
from collections.abc import Callable


class Refused(Exception):
    """Why a script stops, in one line."""


def script_name() -> str:
    return os.path.basename(sys.argv[0])


def usage(doc: str) -> Refused:
    """What is said of words that a script doesn't know: the first line of its help."""
    return Refused(f"{doc.strip().splitlines()[0]} (--help says more)")


def run(doc: str, act: Callable[[list[str]], None]) -> None:
    """Runs a script on its words, and ends with status 0, or with 1 and one line where it is refused."""
    words = sys.argv[1:]
    if words in (["-h"], ["--help"]):
        print(doc.strip())
        return
    try:
        act(words)
        sys.stdout.flush()
    except Refused as why:
        sys.exit(f"{script_name()}: {why}")
    except BrokenPipeError:
        # the reader of the output went away, as `head` does
        os.dup2(os.open(os.devnull, os.O_WRONLY), sys.stdout.fileno())
    except OSError as error:
        sys.exit(f"{script_name()}: {error.filename}: {error.strerror}")


def given(words: list[str]) -> bytes:
    """The bytes of the one file that is named, or of standard input where none is."""
    if words:
        with open(words[0], "rb") as file:
            return file.read()
    return sys.stdin.buffer.read()
