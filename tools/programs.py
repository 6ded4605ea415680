"""Runs the programs of this repository. The other tools stand on it."""
import pathlib
import subprocess

TOP = pathlib.Path(__file__).resolve().parent.parent


class Ran:
    """What came of a run: its status, and what it wrote to standard output and to standard error."""

    def __init__(self, status, written, errors):
        self.status, self.written, self.errors = status, written, errors

    @property
    def text(self):
        return self.written.decode("utf-8", "replace")

    @property
    def answer(self):
        """What is the same whenever the answer is: status and text."""
        return self.status, self.text


def built(crate="jade"):
    """The program of a crate, where it is built."""
    return TOP / "crates" / crate / "out" / crate


def run(words, given="", seconds=None, told=None, is_quiet=False):
    """Runs a program with words on standard input, for some seconds at most. `told` is its environment; where it is quiet,
    what it writes to standard error is kept back."""
    given = given.encode() if isinstance(given, str) else given
    errors = subprocess.PIPE if is_quiet else None
    words = [str(word) for word in words]
    ran = subprocess.run(words, input=given, stdout=subprocess.PIPE, stderr=errors, timeout=seconds, env=told)
    return Ran(ran.returncode, ran.stdout, ran.stderr or b"")
