#!/usr/bin/env python3
"""Looks after the edits that must fail.

    tools/edits.py              each edit can be applied: its file is there, and each old line stands there once
    tools/edits.py try CRATE..  tries the edits in more-edits of these crates, which the gate leaves out

An edit is a file with a line `file: PATH`, below its crate, and pairs of lines `old: ..` and `new: ..`. Those in a
crate's `must-fail` are tried by `rt ci`; those in its `more-edits` are as good, and are left to this script, so that
the gate ends in time. It tries them in a copy of the last commit, after the proofs of what they stand on, where
these are not kept; each must be refused. The script ends with 1 where one is not, or can't be applied.
"""
import pathlib, shutil, subprocess, sys, tempfile

ROOT = pathlib.Path(__file__).resolve().parent.parent
FOLDERS = ("must-fail", "more-edits")


def why_not(edit):
    """Returns why an edit can't be applied, or None."""
    crate, text, old = edit.parent.parent, None, None
    pairs = 0
    for line in edit.read_text().split("\n"):
        key, _, rest = line.partition(":")
        rest = rest.removeprefix(" ")
        if key == "file":
            path = crate / rest.strip()
            if not path.is_file():
                return f"there is no {rest.strip()}"
            text = path.read_text()
        elif key == "old":
            old = rest
        elif key == "new":
            if text is None or not old:
                return "a new line stands before a file or an old line"
            if text.count(old) != 1:
                return f"its old line stands {text.count(old)} times: {old.strip()}"
            if old == rest:
                return "its new line is the old one"
            text, old, pairs = text.replace(old, rest), None, pairs + 1
    return None if pairs else "it changes nothing"


def check():
    edits = sorted(it for folder in FOLDERS for it in ROOT.glob(f"crates/*/{folder}/*.edit"))
    bad = [(it, why) for it in edits for why in [why_not(it)] if why]
    for edit, why in bad:
        print(f"{edit.relative_to(ROOT)} can't be applied: {why}")
    print(f"{len(edits)} edits that must fail, {len(bad)} bad")
    return 1 if bad or not edits else 0


def attempt(names):
    lacking = [it for it in names if not (ROOT / "crates" / it / "more-edits").is_dir()]
    if lacking:
        sys.exit(f"{lacking[0]} has no more-edits")
    with tempfile.TemporaryDirectory(prefix="jade-edits-") as room:
        copy = pathlib.Path(room) / "jade"
        subprocess.run(["git", "clone", "-q", ROOT, copy], check=True)
        for folder in copy.glob("crates/*/must-fail"):
            shutil.rmtree(folder)
        for name in names:
            (copy / "crates" / name / "more-edits").rename(copy / "crates" / name / "must-fail")
        return subprocess.run(["rt", "ci", *names], cwd=copy).returncode


if len(sys.argv) > 2 and sys.argv[1] == "try":
    sys.exit(attempt(sys.argv[2:]))
elif len(sys.argv) == 1:
    sys.exit(check())
sys.exit(__doc__)
