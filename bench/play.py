#!/usr/bin/env python3
"""Times `PROGRAM play CONF SCRIPT` over long scripts, beside the same job in plain Rust (plain.rs, plain_core.rs).

    bench/play.py PROGRAM [LOAD ..] [ADDS ..]

The loads are letters, all of them where none is given; numbers replace their sizes, which count `add` lines.

a  One neighbour adds as many different nets, in their order or shuffled, with paths of 1 to 10 numbers, and asks
   `show route` once at the end.
b  Eight eBGP neighbours, which import all and export none, add a quarter as many nets, each of them by four neighbours,
   all in any order; then half of the routes are withdrawn, and one protocol does `reload in`.
c  The same adds and withdrawals where the eight export all, to each other, and a `sync` at the end.
e  The same adds and withdrawals where the eight have four tables, two of them one each, which pipes join to the main
   table both ways; a `sync` at the end.
d  Memory: 400,000 adds of different nets over one neighbour, over eight that export none, and over eight that export
   all. Since a script has at most 16 MiB, its lines are as short as they get: nets of IPv6, a path of one number. The
   greatest memory of PROGRAM must stay under 8 GiB.

Both programs run three times (once in d), of which the shortest counts, and once more under /usr/bin/time for the
greatest memory. Seconds are those of a processor, so other processes disturb less; `us/line` is of all lines of the
script. Both programs must write the same bytes. It wants rustc.
"""

import filecmp
import pathlib
import random
import resource
import subprocess
import sys
import tempfile

from runs import greatest_memory

USAGE = "bench/play.py PROGRAM [LOAD ..] [ADDS ..]"
SIZES = [1_000, 10_000, 100_000]
MEMORY_SIZES = [400_000]
MEMORY_LIMIT = 8 * 1024
SCRIPT_LIMIT = 16 * 1024 * 1024
NEIGHBOURS = range(1, 9)
RUNS = 3
SEED = 65000

HEAD = f"{'load':4} {'kind':10} {'adds':>7} {'lines':>7} {'program':>8} {'seconds':>8} {'us/line':>8} {'MiB':>7}"


def protocol(name, number, family, address, policy, table=""):
    return (
        f"protocol bgp {name} {{ local as 65000; neighbor {address} as {65000 + number}; med metric on;\n"
        f"  {family} {{ {table}import all; export {policy}; }}; }}\n"
    )


def neighbour(number, policy, table=""):
    return protocol(f"p{number}", number, "ipv4", f"192.0.2.{number}", policy, table)


def pipe(table):
    return (
        f"ipv4 table t{table};\n"
        f"protocol pipe j{table} {{ table master4; peer table t{table}; import all; export all; }}\n"
    )


def net(index):
    """The nets 10.0.0.0/24, 10.0.1.0/24 and so on."""
    return f"{10 + (index >> 16)}.{index >> 8 & 255}.{index & 255}.0/24"


def add_line(random_numbers, number, index, first):
    length = random_numbers.randint(1, 10 - len(first))
    path = first + [random_numbers.randint(1, 400_000) for _ in range(length)]
    origin = random_numbers.choice(["igp", "egp", "incomplete"])
    words = " ".join(str(system) for system in path)
    return f"@p{number} add {net(index)} via 192.0.2.{number} path {words} origin {origin}"


def one_neighbour(count):
    for order in ["sorted", "shuffled"]:
        random_numbers = random.Random(SEED)
        nets = list(range(count))
        if order == "shuffled":
            random_numbers.shuffle(nets)
        adds = [add_line(random_numbers, 1, index, []) for index in nets]
        yield order, neighbour(1, "all"), ["@p1 open 10.0.0.1", *adds, "@p1 show route"]


def eight_neighbours(count):
    """The adds and withdrawals of both loads of eight."""
    random_numbers = random.Random(SEED)
    nets = range(count // 4)
    routes = [(number, index) for index in nets for number in random_numbers.sample(NEIGHBOURS, 4)]
    random_numbers.shuffle(routes)
    adds = []
    for number, index in routes:
        med = random_numbers.choice(["", "", " med 10", " med 20"])
        adds.append(add_line(random_numbers, number, index, [65000 + number]) + med)
    gone = random_numbers.sample(routes, len(routes) // 2)
    opens = [f"@p{number} open 10.0.0.{number}" for number in NEIGHBOURS]
    return opens + adds + [f"@p{number} del {net(index)}" for number, index in gone]


def imports(count):
    conf = "".join(neighbour(number, "none") for number in NEIGHBOURS)
    yield "imports", conf, eight_neighbours(count) + ["@p3 reload in p3"]


def exports(count):
    conf = "".join(neighbour(number, "all") for number in NEIGHBOURS)
    yield "exports", conf, eight_neighbours(count) + ["sync"]


def pipes(count):
    conf = "".join(pipe(table) for table in range(4))
    conf += "".join(neighbour(number, "all", f"table t{number % 4}; ") for number in NEIGHBOURS)
    yield "pipes", conf, eight_neighbours(count) + ["sync"]


def short_net(index):
    """The nets 1::/16 to 1::/99, 2::/16 to 2::/99 and so on."""
    return f"{1 + index // 84:x}::/{16 + index % 84}"


def short_lines(count, names, policy):
    confs = [
        protocol(name, number, "ipv6", f"2001:db8::{number}", policy)
        for number, name in enumerate(names, 1)
    ]
    opens = [f"@{name} open 10.0.0.{number}" for number, name in enumerate(names, 1)]
    adds = [
        f"@{names[index % len(names)]} add {short_net(index)} via :: path {1 + index % 9} origin igp"
        for index in range(count)
    ]
    return "".join(confs), opens + adds


def memory(count):
    yield "one", *short_lines(count, "b", "all")
    yield "eight none", *short_lines(count, "bcdefghi", "none")
    yield "eight all", *short_lines(count, "bcdefghi", "all")


# The scripts of each load, its sizes and how often it runs.
LOADS = {
    "a": (one_neighbour, SIZES, RUNS),
    "b": (imports, SIZES, RUNS),
    "c": (exports, SIZES, RUNS),
    "e": (pipes, SIZES, RUNS),
    "d": (memory, MEMORY_SIZES, 1),
}


def processor_seconds():
    used = resource.getrusage(resource.RUSAGE_CHILDREN)
    return used.ru_utime + used.ru_stime


def run(command, output):
    """The seconds of one run."""
    with open(output, "wb") as out:
        begun = processor_seconds()
        subprocess.run(command, stdout=out, check=True)
        return processor_seconds() - begun


def measure(name, program, folder, runs, labels, lines):
    """Prints a row of the table, and gives the seconds and the memory."""
    command = [program, "play", folder / "conf", folder / "script"]
    output = folder / name
    seconds = min(run(command, output) for _ in range(runs))
    mebibytes = greatest_memory(command, folder, stdout=subprocess.DEVNULL, check=True) / 1024
    each = seconds * 1e6 / lines
    print(f"{labels} {lines:7} {name:>8} {seconds:8.3f} {each:8.2f} {mebibytes:7.1f}", flush=True)
    return seconds, mebibytes


def compare(program, plain, folder, runs, labels, conf, lines):
    """Whether the program kept within the memory."""
    text = "".join(f"{line}\n" for line in lines)
    if len(text) > SCRIPT_LIMIT:
        sys.exit(f"{labels}: the script has more than {SCRIPT_LIMIT} bytes")
    (folder / "conf").write_text(conf)
    (folder / "script").write_text(text)
    ours = measure("birdcore", program, folder, runs, labels, len(lines))
    theirs = measure("plain", plain, folder, runs, labels, len(lines))
    if not filecmp.cmp(folder / "birdcore", folder / "plain", shallow=False):
        sys.exit("the two reports differ")
    print(f"{labels} {'':7} {'ratio':>8} {ours[0] / theirs[0]:8.2f} {'':8} {ours[1] / theirs[1]:7.2f}", flush=True)
    if ours[1] >= MEMORY_LIMIT:
        print(f"{labels} takes {MEMORY_LIMIT} MiB or more")
    return ours[1] < MEMORY_LIMIT


def measured(program, plain, folder, loads, sizes):
    """Runs the loads, and gives whether each kept within the memory."""
    print(HEAD)
    for load in loads:
        scripts, usual_sizes, runs = LOADS[load]
        for count in sizes or usual_sizes:
            for kind, conf, lines in scripts(count):
                labels = f"{load:4} {kind:10} {count:7}"
                yield compare(program, plain, folder, runs, labels, conf, lines)


def main():
    words = sys.argv[2:]
    sizes = [int(word) for word in words if word.isdigit()]
    loads = [word for word in words if not word.isdigit()] or list(LOADS)
    if len(sys.argv) < 2 or any(load not in LOADS for load in loads):
        sys.exit(f"usage: {USAGE}")
    program = pathlib.Path(sys.argv[1]).resolve()
    with tempfile.TemporaryDirectory() as name:
        folder = pathlib.Path(name)
        plain = folder / "plain-program"
        source = pathlib.Path(__file__).with_name("plain.rs")
        subprocess.run(["rustc", "-O", "--edition", "2021", "-o", plain, source], check=True)
        if not all(list(measured(program, plain, folder, loads, sizes))):
            sys.exit(1)


if __name__ == "__main__":
    main()
