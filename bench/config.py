#!/usr/bin/env python3
"""Times how `PROGRAM check CONF` reads long configurations.

    bench/config.py PROGRAM [SIXTEENTHS ..]

The greatest configuration is one byte under the limit of 16 MiB: a filter with a set of 400,000 prefixes, and 10,000 small
functions, filled up with comments. Smaller ones have so many sixteenths of each. All are accepted, with status 0.

Then come texts of 16 MiB, accepted ones (functions alone, one set, one long filter) and refused ones, with status 2: no
text that is refused should be dearer than an accepted one. Last come 40,000 variables in one block, and as many
constants, functions, filters.

Each runs three times, of which the shortest counts, and once more under /usr/bin/time for the greatest memory.
"""

import os
import pathlib
import subprocess
import sys
import tempfile

from runs import greatest_memory, program_and_sizes

SIXTEENTHS = [1, 2, 4, 8, 16]
LIMIT = 16 * 1024 * 1024
PREFIXES = 400_000
FUNCTIONS = 10_000
RUNS = 3

MANY = 40_000

HEAD = f"{'text':36} {'bytes':>9} {'seconds':>8} {'ns/byte':>8} {'MiB':>7} {'byte/byte':>9}"


def prefix(index):
    """The prefixes 10.0.0.0/24, 10.0.1.0/24 and so on, with a range of lengths now and then."""
    lengths = ["", "+", "-", "{16,28}"][index % 4]
    return f"{10 + (index >> 16)}.{index >> 8 & 255}.{index & 255}.0/24{lengths}"


def function(index):
    return (
        f"function f{index}(int a; prefix p) -> bool {{\n"
        f"  int b = a * {index} + 7;\n"
        "  if p ~ [ 10.0.0.0/8+, 192.168.0.0/16{16,24} ] then return false;\n"
        "  if bgp_path.len > b || bgp_path ~ [= * 65000 * =] then return true;\n"
        "  case b { 1, 2: return true; 3..9: bgp_med = 5; else: return (a, b) ~ bgp_community; }\n"
        "  return false;\n"
        "}\n"
    )


def configuration(sixteenths):
    prefixes = ",\n    ".join(prefix(index) for index in range(PREFIXES * sixteenths // 16))
    functions = "".join(function(index) for index in range(FUNCTIONS * sixteenths // 16))
    text = f"filter long {{\n  if net ~ [\n    {prefixes} ] then accept;\n  reject;\n}}\n{functions}"
    room = LIMIT * sixteenths // 16 - 1 - len(text)
    line = "# a comment that fills the file up\n"
    return text + line * (room // len(line)) + "#" * (room % len(line))


def filled(piece, head, tail):
    """A text of just under 16 MiB: a head, as many pieces as there is room for, and a tail."""
    pieces = [head]
    room = LIMIT - 1 - len(head) - len(tail)
    index = 0
    while len(text := piece(index)) <= room:
        pieces.append(text)
        room -= len(text)
        index += 1
    return "".join(pieces) + tail


def in_set(index):
    return f"{prefix(index % PREFIXES)},\n    "


def condition(index):
    return (
        f"  if net.len > {index % 33} && bgp_path.len < {index} || bgp_med = {index} "
        f"then bgp_local_pref = {index % 100};\n"
    )


def route(index):
    return f"  route {10 + (index >> 16)}.{index >> 8 & 255}.{index & 255}.0/24 blackhole;\n"


LONG_SET = "filter long {\n  if net ~ [\n    "
LONG_FILTER = "filter long {\n"
ROUTES = "protocol static s {\n  ipv4;\n"

# A name, the status, and the text.
TEXTS = [
    ("functions", 0, lambda: filled(function, "", "")),
    ("refused at the end", 2, lambda: filled(function, "", "function ;\n")),
    ("with `template` at the end", 2, lambda: filled(function, "", "template bgp t { }\n")),
    ("with `add` at the end", 2, lambda: filled(function, "", "add;\n")),
    ("with a torn prefix at the end", 2, lambda: filled(function, "", "router id 10.0.0.1/8;\n")),
    ("a set", 0, lambda: filled(in_set, LONG_SET, "10.0.0.0/8 ] then accept;\n}\n")),
    ("refused at its end", 2, lambda: filled(in_set, LONG_SET, "10.0.0.0/8 ; then accept;\n}\n")),
    ("with two prefixes at its end", 2, lambda: filled(in_set, LONG_SET, "10.0.0.0/8 10.0.0.0/8 ] then accept;\n}\n")),
    ("a filter", 0, lambda: filled(condition, LONG_FILTER, "  accept;\n}\n")),
    ("refused at its end", 2, lambda: filled(condition, LONG_FILTER, "  accept }\n")),
    ("with a prefix at its end", 2, lambda: filled(condition, LONG_FILTER, "  10.0.0.0/8;\n}\n")),
    ("with `add` at its end", 2, lambda: filled(condition, LONG_FILTER, "  add;\n}\n")),
    ("static routes", 0, lambda: filled(route, ROUTES, "}\n")),
    ("with `recursive` at the end", 2, lambda: filled(route, ROUTES, "  route 10.0.0.0/8 recursive;\n}\n")),
    ("`(`", 2, lambda: filled(lambda index: "(", "filter f { if ", "")),
]


def lines(line, head="", tail=""):
    return head + "".join(line(index) for index in range(MANY)) + tail


# The same number of names of one kind.
NAMES = [
    ("variables", lambda: lines(lambda index: f"  int v{index} = {index};\n", "filter f {\n", "  accept;\n}\n")),
    ("constants", lambda: lines(lambda index: f"define c{index} = {index};\n")),
    ("functions", lambda: lines(lambda index: f"function f{index}() {{ }}\n")),
    ("filters", lambda: lines(lambda index: f"filter f{index} {{ accept; }}\n")),
]


def seconds(command, wanted):
    begun = os.times()
    status = subprocess.run(command, stdout=subprocess.DEVNULL, stderr=subprocess.DEVNULL).returncode
    ended = os.times()
    if status != wanted:
        sys.exit(f"the program ended with status {status}")
    return ended.children_user + ended.children_system - begun.children_user - begun.children_system


def measure(program, folder, name, text, wanted=0):
    conf = folder / "conf"
    conf.write_text(text)
    size = conf.stat().st_size
    command = [program, "check", conf]
    shortest = min(seconds(command, wanted) for _ in range(RUNS))
    most = greatest_memory(command, folder, stdout=subprocess.DEVNULL, stderr=subprocess.DEVNULL) * 1024
    each = f"{shortest:8.3f} {shortest * 1e9 / size:8.1f} {most / 2**20:7.1f} {most / size:9.2f}"
    print(f"{name:36} {size:9} {each}", flush=True)


def main():
    program, sizes = program_and_sizes("bench/config.py PROGRAM [SIXTEENTHS ..]", SIXTEENTHS)
    with tempfile.TemporaryDirectory() as name:
        folder = pathlib.Path(name)
        print(HEAD)
        for sixteenths in sizes:
            measure(program, folder, f"{sixteenths} sixteenths", configuration(sixteenths))
        for label, status, text in TEXTS:
            measure(program, folder, label, text(), status)
        for label, text in NAMES:
            measure(program, folder, f"{MANY:,} {label}", text())


if __name__ == "__main__":
    main()
