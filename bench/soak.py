#!/usr/bin/env python3
"""Runs `PROGRAM run` over random scripts and reads what it writes.

    bench/soak.py PROGRAM [RUNS] [SEED]

Each run has 2 to 64 speakers, as many protocols of BGP over one to three tables, some with static routes beside them, some with
pipes from each table to the next, journals of 1 to 256 changes and 1 to 4 phases. Of each report these things are read, by this
script alone:

- each protocol's operations are those of its own neighbour's lines, in their order, and those that others ask for, each
  one's in its order;
- a journal's positions follow one another, through all phases, and its changes alternate as a table's do: none says
  again what is there, none withdraws what isn't;
- a table's state is what all its changes leave;
- while a channel is up the positions at which it sends a net rise, are its table's, and no withdrawal is of nothing;
- what stands as sent is what its log leaves: at the sync the best route of each net that its own protocol didn't bring, and of
  a pipe's direction each route of the table that it reads, but for those that came by this pipe;
- a table has of the sources of other tables just what the directions that write it have sent;
- a reply's position is between its table's at the phase's ends, and its text has the nets of the table there.

The state at each sync must be that of `play` on the same files too, since each protocol is driven by one speaker. It
stops at the first fault, and leaves the files.
"""

import dataclasses
import pathlib
import random
import subprocess
import sys
import tempfile

USAGE = "bench/soak.py PROGRAM [RUNS] [SEED]"
LIMIT = 60


TABLES = ["master4", "second", "third"]


@dataclasses.dataclass(frozen=True)
class Home:
    """Where a protocol's routes come from and what its channel sends, or what a direction of a pipe reads, writes and sends."""

    table: str
    policy: str
    writes: str = ""

    def passes(self, source):
        """Whether this direction passes a source: its table is on the side that the direction reads."""
        at, reads, writes = (TABLES.index(table) for table in (source.table, self.table, self.writes))
        return at <= reads if reads < writes else at >= reads

    def sends(self, net):
        return self.policy == "all" or self.policy != "none" and int(net.split("/")[1]) < 28


def make_pipes(dice, tables, homes):
    """A pipe from each table to the next one, under the names of its directions in `homes`."""
    for n, (primary, peer) in enumerate(zip(tables, tables[1:])):
        out, back = (dice.choice(["all", "all", "none", "where net.len < 28"]) for _ in range(2))
        homes[f"k{n}.export"] = Home(primary, out, peer)
        homes[f"k{n}.import"] = Home(peer, back, primary)
        yield f"protocol pipe k{n} {{ table {primary}; peer table {peer}; import {back}; export {out}; }}"


def is_neighbour(name):
    return name.startswith("p")


def make_conf(dice, count):
    tables = TABLES[: dice.choice([1, 2, 2, 3])]
    text = ["router id 192.0.2.254;"] + [f"ipv4 table {table};" for table in tables[1:]]
    homes = {}
    if dice.random() < 0.5:
        routes = " ".join(f"route 198.51.{n}.0/24 blackhole;" for n in range(dice.randrange(1, 6)))
        text.append(f"protocol static fixed {{ ipv4 {{ }}; {routes} }}")
        homes["fixed"] = Home("master4", "none")
    if dice.random() < 0.6:
        text += make_pipes(dice, tables, homes)
    for n in range(1, count + 1):
        table = dice.choice(tables)
        policy = dice.choice(["all", "all", "all", "none", "where net.len < 28"])
        homes[f"p{n}"] = Home(table, policy)
        text.append(
            f"protocol bgp p{n} {{ local as 65000; neighbor 192.0.2.{n} as {65000 + n}; med metric on; "
            f"ipv4 {{ table {table}; import all; export {policy}; }}; }}"
        )
    return "\n".join(text) + "\n", homes


def make_script(dice, homes):
    speakers = [name for name in homes if is_neighbour(name)]
    pipes = sorted({name.split(".")[0] for name in homes if "." in name})
    nets = [f"10.{n}.0.0/{dice.choice([16, 24, 28])}" for n in range(dice.randrange(1, 12))]
    lines = {name: [f"@{name} open 10.0.0.{name[1:]}"] for name in speakers}
    text, phases, up = [], [], set()
    for phase in range(dice.randrange(1, 5)):
        said = []
        if phase == 0:
            said += [lines[name][0] for name in speakers]
            up |= set(speakers)
        for _ in range(dice.randrange(0, 120)):
            name, what = dice.choice(speakers), dice.random()
            if what < 0.6:
                path = " ".join(str(65000 + dice.randrange(1, 99)) for _ in range(dice.randrange(1, 4)))
                said.append(f"@{name} add {dice.choice(nets)} via 192.0.2.{name[1:]} path {65000 + int(name[1:])} {path} origin igp")
            elif what < 0.8:
                said.append(f"@{name} del {dice.choice(nets)}")
            elif what < 0.84:
                said.append(f"@{name} close")
                up.discard(name)
                said.append(f"@{name} open 10.0.0.{name[1:]}")
            elif what < 0.88:
                said.append(f"@{name} reload {dice.choice(['in ', 'out ', ''])}{name}")
            elif what < 0.92 and pipes:
                word = dice.choice(["disable", "enable", "enable", "reload"])
                said.append(f"@{speakers[0]} {word} {dice.choice(pipes)}")
            else:
                said.append(f"@{name} show route table {homes[name].table}")
        phases.append(said)
        text += ["sync"] * (phase > 0) + said
    return "\n".join(text) + "\n", phases


def read_report(text):
    """Phases of a report: by heading the lines below it."""
    phases, part = [], None
    assert text.endswith("end\n"), "no end"
    for line in text.splitlines():
        if line.startswith("phase "):
            phases.append([])
        elif line == "end":
            break
        elif not line.startswith("\t"):
            phases[-1].append((line.split(), []))
        else:
            phases[-1][-1][1].append(line[1:])
    return phases


class Fault(Exception):
    pass


def want(good, what):
    if not good:
        raise Fault(what)


def asked_of(name, said):
    """The operations that a phase's lines ask of a protocol: those of others name it, behind all else."""
    for line in said:
        actor, word, *rest = line[1:].split(" ")
        if word in ("disable", "enable", "reload"):
            if rest[-1] == name:
                yield " ".join([word, *rest[:-1]])
        elif actor == name and word != "show":
            yield " ".join([word, *rest])


def audit_protocol(name, said, done):
    asked = list(asked_of(name, said))
    want(asked == done, f"operations of {name}: {asked} {done}")


def audit_journal(table, head, lines, known, before):
    first, last = int(head[2]), int(head[3])
    want(first == before, f"{table} begins at {first}, not {before}")
    want([int(line.split()[0]) for line in lines] == list(range(first + 1, last + 1)), f"positions of {table}")
    for line in lines:
        _, net, source, rest = line.split(" ", 3)
        key = (net, source)
        want(known.get(key, "-") != rest, f"{table}: {line} changes nothing")
        known.pop(key, None) if rest == "-" else known.__setitem__(key, rest)
    return last


def key_of(name, line):
    """What a channel tells of, and what of it: a direction of a pipe each source's route of a net."""
    if "." in name:
        net, source, rest = line.split(" ", 2)
        return (net, source), rest
    net, rest = line.split(" ", 1)
    return net, rest


def audit_channel(name, lines, log, heads):
    for line in lines:
        word = line.split()[0]
        if word == "up":
            log.update(up=True, since=int(line.split()[1]), at={}, sent={})
        elif word == "down":
            log.update(up=False, sent={})
        elif word[0].isdigit():
            at, said = line.split(" ", 1)
            key, rest = key_of(name, said)
            want(log["up"], f"{name} sends while it is down")
            least = log["at"].get(key, log["since"])
            want(least <= int(at) <= heads, f"{name}: {key} at {at} behind {least}")
            log["at"][key] = int(at)
            want(rest != "-" or key in log["sent"], f"{name}: {line} withdraws nothing")
            log["sent"].pop(key, None) if rest == "-" else log["sent"].__setitem__(key, rest)


def audit_state(lines, tables, logs, homes):
    best, section = {}, None
    for line in lines:
        if not line.startswith("\t"):
            section = line.split()
            if section[0] == "table":
                table, rows = section[1], []
                best[table] = {}
                want(int(section[3]) == len(tables.get(table, {})), f"routes of {table}")
            elif section[0] == "export":
                want((section[2] == "down") != logs[section[1]]["up"], f"export {section[1]}")
                if section[2] != "down":
                    want(int(section[2]) == len(logs[section[1]]["sent"]), f"export {section[1]} counts")
        elif section[0] == "table":
            net, source, rest = line[1:].split(" ", 2)
            want(tables[section[1]].get((net, source)) == rest, f"{section[1]}: {line}")
            best[section[1]].setdefault(net, source)
        elif section[0] == "export":
            key, rest = key_of(section[1], line[1:])
            want(logs[section[1]]["sent"].get(key) == rest, f"export {section[1]}: {line}")
    for name, log in logs.items():
        if log["up"]:
            home = homes[name]
            keys = tables.get(home.table, {}) if home.writes else best[home.table].items()
            due = {key if home.writes else key[0] for key in keys if home.sends(key[0])
                   and (home.passes(homes[key[1]]) if home.writes else key[1] != name)}
            want(set(log["sent"]) == due, f"{name} has sent {sorted(log['sent'])}, not {sorted(due)}")
    for table, rows in tables.items():
        brought = {}
        for name, log in logs.items():
            if homes[name].writes == table:
                brought.update(log["sent"])
        strange = {key: rest for key, rest in rows.items() if homes[key[1]].table != table}
        want(strange == brought, f"{table} has {strange} of other tables, and {brought} came")


def audit(text, homes, phases):
    report = read_report(text)
    want(len(report) == len(phases), "phases")
    tables, heads = {}, {}
    logs = {name: {"up": False, "since": 0, "at": {}, "sent": {}} for name in homes if name != "fixed"}
    for said, blocks in zip(phases, report):
        begun = dict(heads)
        for head, lines in blocks:
            if head[0] == "protocol" and head[1] != "fixed":
                audit_protocol(head[1], said, lines)
            elif head[0] == "journal":
                heads[head[1]] = audit_journal(head[1], head, lines, tables.setdefault(head[1], {}), heads.get(head[1], 0))
            elif head[0] == "channel":
                audit_channel(head[1], lines, logs[head[1]], heads[homes[head[1]].table])
            elif head[0] == "reply":
                want(begun.get(head[2], 0) <= int(head[3]) <= heads[head[2]], f"reply at {head[3]}")
            elif head[0] == "state":
                audit_state(lines, tables, logs, homes)
        asked = sum(" show " in line for line in said)
        want(asked == sum(head[0] == "reply" for head, _ in blocks), "replies")


def program(words):
    done = subprocess.run(words, capture_output=True, text=True, timeout=LIMIT)
    want(done.returncode == 0, f"{words}: {done.returncode} {done.stderr}")
    return done.stdout


def one(path, binary, seed):
    dice = random.Random(seed)
    conf, homes = make_conf(dice, dice.choice([2, 3, 4, 8, 16, 63]))
    script, phases = make_script(dice, homes)
    files = [str(path / "conf"), str(path / "script")]
    (path / "conf").write_text(conf)
    (path / "script").write_text(script)
    journal = ["--journal", str(dice.choice([1, 2, 3, 16, 256]))]
    audit(program([binary, "run", *files, *journal]), homes, phases)
    want(program([binary, "run", *files, *journal, "-q"]) == program([binary, "play", *files, "-q"]), "state of a play")


def main():
    if not 2 <= len(sys.argv) <= 4:
        sys.exit(f"usage: {USAGE}")
    runs = int(sys.argv[2]) if len(sys.argv) > 2 else 1000
    first = int(sys.argv[3]) if len(sys.argv) > 3 else 1
    path = pathlib.Path(tempfile.mkdtemp())
    for seed in range(first, first + runs):
        try:
            one(path, sys.argv[1], seed)
        except (Fault, subprocess.TimeoutExpired) as fault:
            sys.exit(f"seed {seed}, {path}: {fault}")
    print(f"{runs} scripts run twice, no fault")


if __name__ == "__main__":
    main()
