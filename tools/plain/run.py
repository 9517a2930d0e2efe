#!/usr/bin/env python3
"""Runs the planner of a clone as plain Rust on instances: run.py CLONE[,CLONE2..] INSTANCE.. [--good] [--cert DIR] [--budget N] [--gap N]"""
import argparse
import hashlib
import os
import subprocess
import sys
import tempfile
import tomllib
from pathlib import Path

import translate

HERE = Path(__file__).resolve().parent
OWN_FILES = ["driver.rs", "kit.rs", "sort.rs"]
FLAGS = ["--edition", "2024", "-C", "opt-level=3", "-C", "codegen-units=1", "-C", "debuginfo=1", "-C", "panic=abort"]
CLUSTER = ["precision", "lead", "trail", "head", "per_byte", "copy_out", "copy_in", "horizon"]
LAST_DEADLINE = 1_000_000


def files_of(top):
    """All files of the program that stands for the planner at `top`."""
    files = translate.translate(top, "planner")
    files |= {name: (HERE / name).read_text() for name in OWN_FILES}
    return files


def flags_of(files):
    good = "".join(text for name, text in files.items() if name.startswith("good_plan/"))
    head = good[good.index("pub fn good_plan"):].split("{")[0]
    parts = "".join(text for name, text in files.items() if name.startswith("ttp_model/"))
    return [
        *FLAGS,
        *(["--cfg", "good_plan_takes_workers"] if "workers" in head else []),
        *(["--cfg", "good_plan_takes_enough"] if "enough" in head else []),
        *(["--cfg", "clusters_have_channels"] if "pub channels: u32" in parts else []),
    ]


def built(top):
    """The program, built where no earlier run has left it."""
    files = files_of(top)
    flags = flags_of(files)
    mark = hashlib.sha256(repr((sorted(files.items()), flags)).encode()).hexdigest()[:16]
    folder = Path(tempfile.gettempdir()) / "plain_planner" / mark
    program = folder / "program"
    if not program.exists():
        for name, text in files.items():
            path = folder / name
            path.parent.mkdir(parents=True, exist_ok=True)
            path.write_text(text)
        fresh = folder / f"program.{os.getpid()}"
        done = subprocess.run(["rustc", *flags, "-o", fresh, folder / "driver.rs"])
        if done.returncode:
            sys.exit(f"{top}: rustc refused what was made of it, in {folder}")
        fresh.rename(program)
    return program


def places(tables):
    """The first place of each name."""
    return {table["name"]: place for place, table in reversed(list(enumerate(tables)))}


def counted(rows):
    return [len(rows), *(number for row in rows for number in row)]


def numbers_of(text):
    """An instance's numbers in the order in which the driver reads them."""
    table = tomllib.loads(text)
    nodes, processes = table["node"], table["process"]
    node, process = places(nodes), places(processes)
    return [
        table["cluster"].get("channels", 1),
        *(table["cluster"][key] for key in CLUSTER),
        *counted([counted([[c] for c in n["capacities"]]) for n in nodes]),
        *counted([[node[p["node"]], p["wcet"], p.get("release", 0), p.get("deadline", LAST_DEADLINE)] for p in processes]),
        *counted([[process[link["from"]], process[link["to"]]] for link in table.get("link", [])]),
        *counted([[int(m.get("both", False)), process[m["from"]], m["bytes"], *counted([[process[q]] for q in m["to"]])] for m in table.get("message", [])]),
    ]


def instance_path(top, name):
    """A path, or a name of bench/instances."""
    return Path(name) if name.endswith(".toml") else top / "bench" / "instances" / f"{name}.toml"


def run(program, path, options):
    file = Path(options.cert) / f"{path.stem}.cert" if options.cert else "-"
    words = ["good" if options.good else "solve", options.budget, options.gap, file]
    numbers = " ".join(map(str, numbers_of(path.read_text())))
    done = subprocess.run([program, *map(str, words)], input=numbers, stdout=subprocess.PIPE, text=True)
    return done.stdout.strip() or f"failed with {done.returncode}"


def options_of(words):
    parser = argparse.ArgumentParser(description=__doc__)
    parser.add_argument("clones")
    parser.add_argument("instances", nargs="+")
    parser.add_argument("--good", action="store_true", help="the good plan's delay and its time alone")
    parser.add_argument("--cert", help="a folder for the certificates' texts")
    parser.add_argument("--budget", type=int, default=10**9, help="how many subtrees may be worked")
    parser.add_argument("--gap", type=int, default=0, help="within how many ticks of the bound a plan may be")
    return parser.parse_args(words)


def main():
    options = options_of(sys.argv[1:])
    clones = [Path(name).resolve() for name in options.clones.split(",")]
    programs = [(top, built(top)) for top in clones]
    for name in options.instances:
        for top, program in programs:
            path = instance_path(top, name)
            told = run(program, path, options)
            of = f"{top.name}: " if len(clones) > 1 else ""
            print(f"{path.stem:10} {of}{told}", flush=True)


if __name__ == "__main__":
    main()
