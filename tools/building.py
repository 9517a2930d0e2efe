"""What the scripts share that build a program: where it goes, what it stands on, and how they say what they do."""

import hashlib
import pathlib
import shutil
import sys

ROOT = pathlib.Path(__file__).resolve().parent.parent
BUILD = ROOT / "build"
STAMP_BYTES = 128  # behind a program that was proved, as crates/ttplan/src/version.rt reads them


def say(text):
    print(f"ttplan: {text}", file=sys.stderr, flush=True)


def refuse(text):
    """Says what can't be done, and ends with the status of a program that can't be run."""
    say(text)
    sys.exit(70)


def toolchain():
    """The folder of the toolchain's kit; ends where there is none."""
    rt = shutil.which("rt")
    if not rt:
        refuse("the Rattle toolchain is missing (no rt), so no program can be built; README.md tells which one under 'Two commands'")
    return pathlib.Path(rt).resolve().parent.parent


def crates_of(program):
    """The lines of crates.txt for the program and all that it stands on, by name, lowest first."""
    lines = [line for line in (ROOT / "crates.txt").read_text().splitlines() if line and not line.startswith("#")]
    below = {line.split(":")[0]: line.split(":")[1].split() for line in lines}
    wanted, more = set(), [program]
    while more:
        name = more.pop()
        if name in below and name not in wanted:
            wanted.add(name)
            more += below[name]
    return {line.split(":")[0]: line for line in lines if line.split(":")[0] in wanted}


def sum_of_sources():
    """A sum of all that the program is compiled of but the toolchain."""
    told = hashlib.sha256()
    for name, line in crates_of("ttplan").items():
        told.update(f"{line}\n".encode())
        for file in sorted((ROOT / "crates" / name / "src").rglob("*.rt")):
            text = file.read_bytes()
            told.update(f"{file.relative_to(ROOT)} {len(text)}\n".encode() + text)
    return told.hexdigest()[:16]
