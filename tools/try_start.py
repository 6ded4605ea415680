#!/usr/bin/env python3
"""Has start.py prove and build a program of two small crates, and prove it again after changes.

    tools/try_start.py

What is proved must be built, and once only; where a contract does not hold, the start must fail, show why, and leave the
program as it was. The script ends with 1 at the first that is otherwise.
"""
import pathlib
import shutil
import subprocess
import sys
import tempfile

from programs import TOP

LIBRARY = """//! A number.
#![tactic(auto)]

ghost use Rattle.std.specs.Prelude.{◌≡◌};

/// The status with which the program ends.
pub fn status() -> u8
    ensures { result ≡ 7 }
{
    %d
}
"""
PROGRAM = """//! Ends with that status.
#![tactic(auto)]

use std::process::ExitCode;

fn main() -> ExitCode {
    ExitCode::from(numbers::status())
}
"""


class House:
    """A repository of two crates in a folder of its own, with the tools that start.py needs."""

    def __init__(self, folder):
        self.folder = pathlib.Path(folder)
        (self.folder / "tools").mkdir()
        for name in ("start.py", "programs.py"):
            shutil.copy2(TOP / "tools" / name, self.folder / "tools" / name)
        (self.folder / "crates.txt").write_text("# Lowest first.\nnumbers:\nends: numbers\n")
        (self.folder / "HANDLES").write_text("Handles allowed: none.\n")
        self.write("ends/src/main.rt", PROGRAM)

    def write(self, name, text):
        file = self.folder / "crates" / name
        file.parent.mkdir(parents=True, exist_ok=True)
        file.write_text(text, "utf-8")

    def start(self):
        """The status of a start, and what it said."""
        words = [sys.executable, self.folder / "tools/start.py", "ends"]
        ran = subprocess.run(words, stdout=subprocess.DEVNULL, stderr=subprocess.PIPE, text=True, check=False)
        return ran.returncode, ran.stderr

    def ends(self):
        """The status of the program."""
        return subprocess.run([self.folder / "crates/ends/out/ends"], check=False).returncode


def hold(what, is_so, said):
    if not is_so:
        print(said, file=sys.stderr)
        sys.exit(f"try_start: {what}")


def main():
    with tempfile.TemporaryDirectory(prefix="jade-try-start-") as folder:
        house = House(folder)
        house.write("numbers/src/lib.rt", LIBRARY % 7)
        status, said = house.start()
        hold("a proved program is not built", status == 0 and "proved and built 2 crates" in said, said)
        hold("the program is another one", house.ends() == 7, said)
        status, said = house.start()
        hold("what is built is built again", status == 0 and said == "", said)
        house.write("numbers/src/lib.rt", LIBRARY % 8)
        status, said = house.start()
        hold("a wrong body is built", status == 1 and "numbers was not proved" in said and "must prove: " in said, said)
        hold("the program is not as it was", house.ends() == 7, said)
        house.write("numbers/src/lib.rt", LIBRARY.replace("7", "8") % 8)
        status, said = house.start()
        hold("a changed program is not built", status == 0 and house.ends() == 8, said)
        house.write("ends/src/main.rt", PROGRAM.replace("status())", "status() + 1)"))
        status, said = house.start()
        hold("one crate is changed, and not it alone is built", status == 0 and "proved and built 1 crate " in said, said)
        hold("the program is not the changed one", house.ends() == 9, said)
    print("try_start: ok")


if __name__ == "__main__":
    main()
