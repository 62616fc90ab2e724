#!/usr/bin/env python3
"""Lists a crate's functions by the seconds of a processor that a proof from nothing spends until each is checked.

    python3 bench/functions.py NAME [COUNT]

It wants the libraries below built (`rt check` in the crate). A function's time has in it the first load of what it needs
of the libraries, so the first functions of a module look dear. It is no part of the gate.
"""
import os
import pathlib
import re
import subprocess
import sys

TOP = pathlib.Path(__file__).resolve().parent.parent
TICKS = os.sysconf("SC_CLK_TCK")


def lists():
    """The libraries of each crate, as crates.txt names them."""
    rows = (re.match(r"(\w+)[^:#]*:\s*(.*)", line) for line in (TOP / "crates.txt").read_text().splitlines())
    return {row[1]: row[2].split() for row in rows if row}


def main():
    name, count = sys.argv[1], int(sys.argv[2]) if len(sys.argv) > 2 else 10
    kit, below = pathlib.Path(subprocess.run(["rt", "doc"], capture_output=True, text=True).stdout.strip()).parent, lists()
    words = [str(kit / "bin/rattle"), "check", "--crate-name", name, "src/lib.rt"]
    used = ["std", *below[name]]
    for library in used:
        folder = TOP / f"crates/{library}/out/rlib" if library in below else kit / "rlibs"
        words += ["--extern", f"{library}={folder}/{library}.rlib"]
    for folder in [kit / "rlibs", *(TOP / f"crates/{it}/out/rlib" for it in below)]:
        words += ["-L", f"dependency={folder}"] if folder.is_dir() else []
    logic = kit / "rattle/logic/antt-project.json"
    words += ["--antt-project", str(logic), "--logic-built", str(kit / "logic_built"), "--links", f"{name}=", "--jobs", "1", "--progress"]
    run = subprocess.Popen(words, cwd=TOP / f"crates/{name}", stdout=subprocess.PIPE, stderr=subprocess.STDOUT, text=True)
    last, rows = 0.0, []
    for line in run.stdout:
        fields = pathlib.Path(f"/proc/{run.pid}/stat").read_text().rpartition(") ")[2].split()
        now = (int(fields[11]) + int(fields[12])) / TICKS
        found = re.match(r"checked (\S+),", line)
        if found:
            rows.append((now - last, found[1]))
        last = now
    print(f"{name}: {last:.0f} seconds, {len(rows)} functions, status {run.wait()}")
    for seconds, function in sorted(rows, reverse=True)[:count]:
        print(f"{seconds:6.1f} {function}")


if __name__ == "__main__":
    main()
