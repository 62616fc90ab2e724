#!/usr/bin/env python3
"""Measures where the gate's time goes: runs `rt ci` from nothing and prints, for each crate, the minutes of a processor that
its proof, its tests, its edits, and the builds and runs of its program took, and at which minute its proof had ended.

    python3 bench/gate.py --anew > table.md

--anew is handed on to an `rt ci` that keeps what it proved; one that keeps nothing begins anew at each run. What rt ci says
goes to standard error. Processes are sampled each second, so what ends within a second is not seen and a second of each is
lost; the sum that the system counted is told behind the table. It is no part of the gate.
"""
import os
import re
import resource
import subprocess
import sys
import time

KINDS = ("proof", "tests", "edits", "builds and runs")
TICKS = os.sysconf("SC_CLK_TCK")


def processes():
    """Returns each process by its number: its parent, when it began, its seconds of a processor, its words, its folder."""
    found = {}
    for name in os.listdir("/proc"):
        if not name.isdigit():
            continue
        try:
            with open(f"/proc/{name}/stat", "rb") as file:
                fields = file.read().rpartition(b") ")[2].split()
            with open(f"/proc/{name}/cmdline", "rb") as file:
                words = file.read().decode(errors="replace").split("\0")
            folder = os.readlink(f"/proc/{name}/cwd")
        except OSError:
            continue
        used = (int(fields[11]) + int(fields[12])) / TICKS
        found[int(name)] = int(fields[1]), int(fields[19]), used, words, folder
    return found


def is_below(pid, top, parents):
    """Returns whether a process was started by the other, or by one that it started."""
    while pid in parents and pid != top:
        pid = parents[pid]
    return pid == top


def kind_of(words, folder):
    """Returns the crate and the kind of work of a process, or None where it is neither a check nor a program's run."""
    text = " ".join(words)
    ran = re.search(r"/rt-run-[^/]*/bin/(\w+?)(_tests)?$", next((it for it in words if "/rt-run-" in it), ""))
    if ran and "-llvm" not in words[0]:
        return ran[1], "builds and runs"
    crate = re.search(r"--crate-name (\w+)", text)
    if not crate or os.path.basename(words[0]) != "rattle":
        return None
    if "rt-edit-" in folder or "rt-edits-" in text:
        return crate[1], "edits"
    if "--crate-checked" in words:
        return crate[1], "builds and runs"
    return crate[1], "tests" if "--test" in words else "proof"


def sampled(run, begun):
    """Returns what each process of the run used, with its crate and kind, and when each proof was last seen."""
    used, ends = {}, {}
    while run.poll() is None:
        seen = processes()
        parents = {pid: it[0] for pid, it in seen.items()}
        for pid, (_, start, seconds, words, folder) in seen.items():
            key = pid, start
            kind = kind_of(words, folder) if key in used or is_below(pid, run.pid, parents) else None
            if kind:
                used[key] = seconds, kind
                if kind[1] == "proof":
                    ends[kind[0]] = (time.time() - begun) / 60
        time.sleep(1)
    return used, ends


def row_of(name, minutes, end):
    """Returns a line of the table. What is under a twentieth of a minute is left out."""
    told = [f"{it:.1f}" if it >= 0.05 else "" for it in [*minutes, sum(minutes)]]
    return "|".join([name, *told, end])


def main():
    told = subprocess.run(["rt", "help"], stdout=subprocess.PIPE, stderr=subprocess.STDOUT, text=True, check=False)
    words = [it for it in sys.argv[1:] if it != "--anew" or "--anew" in told.stdout]
    begun = time.time()
    run = subprocess.Popen(["rt", "ci", *words], stdout=sys.stderr)
    used, ends = sampled(run, begun)
    table = {}
    for seconds, (name, kind) in used.values():
        table.setdefault(name, dict.fromkeys(KINDS, 0.0))[kind] += seconds / 60
    print("|".join(["Crate", *KINDS, "all", "proved by minute"]))
    print("|".join(["---"] * (len(KINDS) + 3)))
    for name, row in sorted(table.items(), key=lambda it: -sum(it[1].values())):
        print(row_of(name, row.values(), f"{ends[name]:.0f}" if name in ends else ""))
    sums = [sum(row[it] for row in table.values()) for it in KINDS]
    print(row_of("all", sums, f"{max(ends.values(), default=0):.0f}"))
    whole = resource.getrusage(resource.RUSAGE_CHILDREN)
    print(f"\n{(whole.ru_utime + whole.ru_stime) / 60:.1f} minutes of a processor by the system's count,", end=" ")
    print(f"{(time.time() - begun) / 60:.1f} by the clock, status {run.returncode}")
    sys.exit(run.returncode)


if __name__ == "__main__":
    main()
