#!/usr/bin/env python3
"""Times `PROGRAM run CONF SCRIPT` beside `PROGRAM play CONF SCRIPT` on the same files.

    bench/run.py PROGRAM [ADDS ..]

Eight neighbours export all to each other (load c of play.py), with filters that let all pass at once, with filters of 1,000
conditions over lengths of paths, which cost some nanoseconds each, and with filters of 1,000 masks of paths. Each command
runs three times, of which the shortest by the clock counts, with the seconds of all its processors beside it, and once more
for the greatest memory. The states at the end must be the same.
"""

import pathlib
import resource
import subprocess
import sys
import tempfile
import time

from play import NEIGHBOURS, eight_neighbours, neighbour
from runs import greatest_memory, program_and_sizes

USAGE = "bench/run.py PROGRAM [ADDS ..]"
SIZES = [1_000, 10_000]
RUNS = 3
CONDITIONS = 1_000


def light():
    return "".join(neighbour(number, "all") for number in NEIGHBOURS)


def filtered(condition):
    tests = " ".join(f"if {condition(number)} then reject;" for number in range(CONDITIONS))
    return f"filter slow {{ {tests} accept; }}\n" + "".join(neighbour(number, "filter slow") for number in NEIGHBOURS)


def heavy():
    return filtered(lambda number: f"bgp_path.len = {100 + number}")


def masks():
    return filtered(lambda number: f"bgp_path ~ [= * {4_200_000_000 + number} * =]")


def seconds(command):
    """By the clock, and of all processors."""
    before = resource.getrusage(resource.RUSAGE_CHILDREN)
    begun = time.monotonic()
    subprocess.run(command, stdout=subprocess.DEVNULL, check=True)
    clock = time.monotonic() - begun
    after = resource.getrusage(resource.RUSAGE_CHILDREN)
    return clock, after.ru_utime + after.ru_stime - before.ru_utime - before.ru_stime


def state(command):
    return subprocess.run([*command, "-q"], stdout=subprocess.PIPE, check=True).stdout


def main():
    program, sizes = program_and_sizes(USAGE, SIZES)
    print(f"{'filters':8} {'adds':>7} {'command':>8} {'clock':>8} {'seconds':>8} {'MiB':>7}")
    with tempfile.TemporaryDirectory() as name:
        folder = pathlib.Path(name)
        for kind, conf in [("light", light()), ("heavy", heavy()), ("masks", masks())]:
            for count in sizes:
                (folder / "conf").write_text(conf)
                (folder / "script").write_text("".join(f"{line}\n" for line in eight_neighbours(count) + ["sync"]))
                files = [folder / "conf", folder / "script"]
                for word in ["play", "run"]:
                    command = [program, word, *files]
                    clock, used = min(seconds(command) for _ in range(RUNS))
                    mebibytes = greatest_memory(command, folder, stdout=subprocess.DEVNULL, check=True) / 1024
                    print(f"{kind:8} {count:7} {word:>8} {clock:8.3f} {used:8.3f} {mebibytes:7.1f}", flush=True)
                if state([program, "play", *files]) != state([program, "run", *files]):
                    sys.exit("the states differ")


if __name__ == "__main__":
    main()
