#!/usr/bin/env python3
"""Times verdicts of filters: `PROGRAM rounds CONFIG NUMBER`, beside the same conditions in plain Rust (plain_filters.rs).

    bench/filters.py PROGRAM

PROGRAM is the one of the crate `checks_cases`. A filter has so many conditions, none of which holds, in turn of five
kinds: the net's length, the MED, a community, the path's length, the first number of the path. Another has a set of
100,000 prefixes, in their order, and one more such a set whose items have ranges and are spread over all addresses; no
route is taken by either. A verdict's time is what a run of many rounds takes more than one of one round, a round
being 256 routes; the shortest of three runs counts. In plain Rust the conditions are closures in a vector, and the set is
a sorted vector, which is searched once for each length that a net has where its items have ranges. Both print how many routes were accepted. It wants rustc.

With valgrind it also prints how many instructions an `if` takes whose condition is a call, none of which holds: of a
function that is a set of nets, that is a test, that compares an attribute with its argument, and of one that stays a call.
"""

import pathlib
import re
import shutil
import subprocess
import sys
import tempfile
import time

CONDITIONS = [1, 10, 100, 1_000]
PREFIXES = 100_000
ROUTES = 256
RUNS = 3
SHORTEST = 0.5

CALLS = 50

FUNCTIONS = {
    "net ~ [..]": ("function f0() -> bool { return net ~ [ 11.0.0.0/8{9,32}, 12.0.0.0/8{9,32} ]; }", "f0()"),
    "a test": ("function f0() -> bool { return bgp_med = 1007; }", "f0()"),
    "a number": ("function f0(int n) -> bool { return bgp_path.len > n; }", "f0(60)"),
    "an if": ("function f0(int n) -> bool { if bgp_med = n then return true; return false; }", "f0(1007)"),
}

HEAD = f"{'filter':>16} {'us/verdict':>10} {'verdicts/s':>11} {'plain us':>9} {'times':>6}"


def condition(index):
    """A condition that holds for no route."""
    number = 1_000 + index
    return [
        f"net.len > {25 + index % 7}",
        f"bgp_med = {number}",
        f"(65010, {number}) ~ bgp_community",
        f"bgp_path.len > {20 + index % 50}",
        f"bgp_path.first = {number}",
    ][index % 5]


def conditions(count):
    lines = "".join(f"  if {condition(index)} then reject;\n" for index in range(count))
    return f"filter f {{\n{lines}  accept;\n}}\n"


def prefix(index):
    """The nets 11.0.0.0/24, 11.0.1.0/24 and so on, of which no route has one."""
    return f"{11 + (index >> 16)}.{index >> 8 & 255}.{index & 255}.0/24"


def range_item(index):
    """Nets of 24 bits at even distances, of which those of 25 bits and more are taken, and no route."""
    number = index * (2**32 // PREFIXES) & 0xFFFFFF00
    parts = ".".join(str(number >> shift & 255) for shift in (24, 16, 8, 0))
    return f"{parts}/24{{25,32}}"


def prefixes(count, item):
    nets = ",\n    ".join(item(index) for index in range(count))
    return f"filter f {{\n  if net ~ [\n    {nets} ] then reject;\n  accept;\n}}\n"


def seconds(command):
    """The time of the shortest run, and what it printed."""
    times = []
    for _ in range(RUNS):
        begun = time.perf_counter()
        printed = subprocess.run(command, check=True, capture_output=True, text=True).stdout
        times.append(time.perf_counter() - begun)
    return min(times), printed.strip()


def verdict_time(command):
    """Seconds for each verdict, by a number of rounds that takes long enough."""
    base, _ = seconds(command + ["1"])
    rounds = 64
    while True:
        whole, printed = seconds(command + [str(rounds)])
        if whole - base > SHORTEST:
            return (whole - base) / (rounds * ROUTES), printed, rounds
        rounds *= 4


def instructions(command):
    """How many instructions a verdict takes."""
    counts = []
    for rounds in (1, 9):
        tool = ["valgrind", "--tool=callgrind", "--callgrind-out-file=/dev/null"]
        told = subprocess.run(tool + command + [str(rounds)], check=True, capture_output=True, text=True).stderr
        counts.append(int(re.search(r"Collected : (\d+)", told).group(1)))
    return (counts[1] - counts[0]) / (8 * ROUTES)


def call_rows(folder, program):
    """Instructions of each `if` whose condition is a call."""
    config = folder / "calls.conf"
    command = [str(program), "rounds", str(config)]
    config.write_text("filter f {\n  accept;\n}\n")
    base = instructions(command)
    for name, (function, call) in FUNCTIONS.items():
        lines = f"  if {call} then reject;\n" * CALLS
        config.write_text(f"{function}\nfilter f {{\n{lines}  accept;\n}}\n")
        print(f"{name:>16} {(instructions(command) - base) / CALLS:10.0f} instructions a call")


def row(name, text, plain, kind, count, folder, program):
    config = folder / "filter.conf"
    config.write_text(text)
    ours, printed, rounds = verdict_time([str(program), "rounds", str(config)])
    theirs, _, _ = verdict_time([str(plain), kind, str(count)])
    same = subprocess.run([plain, kind, str(count), str(rounds)], check=True, capture_output=True, text=True)
    if same.stdout.strip() != printed:
        sys.exit(f"{name}: {printed} accepted, plain Rust {same.stdout.strip()}")
    print(f"{name:>16} {ours * 1e6:10.3f} {1 / ours:11.0f} {theirs * 1e6:9.3f} {ours / theirs:6.2f}")


def main():
    if len(sys.argv) != 2:
        sys.exit("usage: bench/filters.py PROGRAM")
    program = pathlib.Path(sys.argv[1]).resolve()
    here = pathlib.Path(__file__).resolve().parent
    with tempfile.TemporaryDirectory() as name:
        folder = pathlib.Path(name)
        plain = folder / "plain"
        subprocess.run(["rustc", "-O", "-o", plain, here / "plain_filters.rs"], check=True)
        print(HEAD)
        for count in CONDITIONS:
            row(f"{count} conditions", conditions(count), plain, "conditions", count, folder, program)
        row(f"{PREFIXES} nets", prefixes(PREFIXES, prefix), plain, "nets", PREFIXES, folder, program)
        row(f"{PREFIXES} ranges", prefixes(PREFIXES, range_item), plain, "ranges", PREFIXES, folder, program)
        if shutil.which("valgrind"):
            call_rows(folder, program)


if __name__ == "__main__":
    main()
