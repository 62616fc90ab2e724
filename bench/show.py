#!/usr/bin/env python3
"""Times replies to `show route`, beside the same job in plain Rust (plain.rs, plain_core.rs).

    bench/show.py PROGRAM [COUNTED]

First counts over a table of 400,000 routes, or COUNTED, with no condition, a simple one and ten that all hold; then
queries for one net among 1,000, 10,000 and 100,000: exactly it, the longest that covers an address, and how many stand
within a net that has four at most. A reply's time is what a script with so many queries takes more than the same
without, over their number, each the shortest of three runs. Seconds are those of a processor. Both programs must write
the same bytes. It wants rustc.
"""

import filecmp
import pathlib
import random
import subprocess
import sys
import tempfile

from play import RUNS, SEED, add_line, neighbour, net, run, short_lines

USAGE = "bench/show.py PROGRAM [COUNTED]"
COUNTED = 400_000
COUNTS = 20
TABLES = [1_000, 10_000, 100_000]
LOOK_UPS = 50_000

TEN = " && ".join([f"net.len > {length}" for length in range(5)] + [f"bgp_path.len < {length}" for length in range(5, 10)])

HEAD = f"{'query':>10} {'routes':>7} {'us/reply':>10} {'plain us':>10} {'times':>6} {'routes/us':>10}"


def counts():
    """The queries that go through a whole table."""
    yield "count", "count table master6"
    yield "simple", "count table master6 where net.len > 40"
    yield "path", "count table master6 where bgp_path.first = 3"
    yield "ten", f"count table master6 where {TEN}"


def look_ups(count):
    """The queries for one net, of nets in any order."""
    random_numbers = random.Random(SEED)
    places = [random_numbers.randrange(count) for _ in range(LOOK_UPS)]
    nets = [net(place) for place in places]
    yield "exact", nets
    yield "for", [f"for {text.removesuffix('0/24')}7" for text in nets]
    yield "in", [f"in {net(place & ~3).removesuffix('/24')}/22 count" for place in places]


class Both:
    """The two programs, and where their files stand."""

    def __init__(self, program, plain, folder):
        self.programs = {"birdcore": program, "plain": plain}
        self.folder = folder

    def seconds(self, conf, lines):
        """The shortest runs over a script; both must write the same."""
        (self.folder / "conf").write_text(conf)
        (self.folder / "script").write_text("".join(f"{line}\n" for line in lines))
        times = []
        for name, program in self.programs.items():
            command = [program, "play", self.folder / "conf", self.folder / "script"]
            times.append(min(run(command, self.folder / name) for _ in range(RUNS)))
        if not filecmp.cmp(self.folder / "birdcore", self.folder / "plain", shallow=False):
            sys.exit("the two reports differ")
        return times

    def rows(self, conf, lines, queries, routes):
        """Prints a row for each kind of query over the table that the lines make."""
        base = self.seconds(conf, lines)
        for name, words in queries:
            asked = [f"@b show route {each}" for each in words]
            whole = self.seconds(conf, lines + asked)
            ours, theirs = ((more - less) / len(words) * 1e6 for more, less in zip(whole, base))
            each = f"{routes / ours:10.2f}" if len(words) == COUNTS else ""
            print(f"{name:>10} {routes:7} {ours:10.2f} {theirs:10.2f} {ours / theirs:6.2f} {each}", flush=True)


def main():
    if len(sys.argv) not in (2, 3):
        sys.exit(f"usage: {USAGE}")
    program = pathlib.Path(sys.argv[1]).resolve()
    counted = int(sys.argv[2]) if len(sys.argv) == 3 else COUNTED
    with tempfile.TemporaryDirectory() as name:
        folder = pathlib.Path(name)
        plain = folder / "plain-program"
        source = pathlib.Path(__file__).with_name("plain.rs")
        subprocess.run(["rustc", "-O", "--edition", "2021", "-o", plain, source], check=True)
        both = Both(program, plain, folder)
        print(HEAD)
        conf, lines = short_lines(counted, "b", "none")
        both.rows(conf, lines, ((label, [words] * COUNTS) for label, words in counts()), counted)
        for count in TABLES:
            random_numbers = random.Random(SEED)
            adds = [add_line(random_numbers, 1, index, []) for index in range(count)]
            both.rows(neighbour(1, "none"), ["@p1 open 10.0.0.1", *adds], look_ups(count), count)


if __name__ == "__main__":
    main()
