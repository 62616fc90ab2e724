#!/usr/bin/env python3
"""Turns a feed of BGP routes into scripts for birdcore.

It reads what `bgpdump -m` prints (tables and updates), or what BIRD's `show route all` prints, line
by line, and writes scripts of `open`, `add`, `del` and `close` lines. What a script can't say is
counted and told on standard error. docs/FEEDS.md shows how to use it. Nothing here is proved.
"""

import argparse
import re
import socket
import sys
import zlib
from dataclasses import dataclass, field

MOST_BYTES = 1 << 24  # of a script, as birdcore reads it
MOST_ACTORS = 64
MOST_NUMBERS = 120  # of a path
MOST_COMMUNITIES = 64  # different ones
LARGEST = 0xFFFFFFFF

WELL_KNOWN = {
    "no-export": "65535:65281",
    "no-advertise": "65535:65282",
    "local-AS": "65535:65283",
}
ORIGINS = {"IGP": "igp", "EGP": "egp", "INCOMPLETE": "incomplete"}


class NotCarried(Exception):
    """A route that a script can't say, and why."""


@dataclass(frozen=True)
class Neighbour:
    """The protocol that a neighbour's routes come to, and its router id."""

    name: str
    router_id: str


@dataclass
class Told:
    """What is told at the end: counts by what was met, each with the line that had it first."""

    line: int = 0
    counts: dict = field(default_factory=dict)

    def count(self, group, what):
        key = (group, what)
        if key in self.counts:
            self.counts[key][0] += 1
        else:
            self.counts[key] = [1, self.line]

    def lines(self, group):
        found = [(what, *seen) for (kind, what), seen in self.counts.items() if kind == group]
        for what, times, first in sorted(found, key=lambda one: -one[1]):
            yield f"{what}: {times} (first in line {first})"


# ---- what stands in a route


def address(text):
    """The family of an address, 4 or 6, and its octets."""
    family, kind = (6, socket.AF_INET6) if ":" in text else (4, socket.AF_INET)
    try:
        return family, socket.inet_pton(kind, text)
    except (OSError, ValueError):
        raise NotCarried("address that isn't one") from None


def spelled(octets):
    """An address in its one spelling, so that a net has one too."""
    if len(octets) == 4:
        return socket.inet_ntop(socket.AF_INET, octets)
    text = socket.inet_ntop(socket.AF_INET6, octets)
    if "." in text:  # an IPv4 address at its end, which birdcore doesn't read
        text = ":".join(octets[place : place + 2].hex() for place in range(0, 16, 2))
    return text


def prefix(text, told):
    """The family of a prefix and its spelling.

    Bits behind its length say nothing (RFC 4271, section 4.3). bgpdump prints those that came.
    """
    host, _, length = text.partition("/")
    family, octets = address(host)
    if not is_number(length) or int(length) > 8 * len(octets):
        raise NotCarried("prefix that isn't one")
    bits = int.from_bytes(octets, "big")
    behind = bits & ((1 << (8 * len(octets) - int(length))) - 1)
    if behind:
        told.count("read so", "prefix with bits behind its length, as zeros")
        octets = (bits - behind).to_bytes(len(octets), "big")
    return family, f"{spelled(octets)}/{int(length)}"


def is_number(text):
    return len(text) <= 20 and text.isascii() and text.isdigit()


def number(text, what):
    if not is_number(text) or int(text) > LARGEST:
        raise NotCarried(f"{what} that isn't a number of 32 bits")
    return str(int(text))


def path(text):
    """The numbers of an AS path."""
    if "(" in text or "[" in text:
        raise NotCarried("confederation segment in the path")
    if "{" in text:
        raise NotCarried("AS set in the path")
    numbers = [number(word, "path with a word") for word in text.split()]
    if len(numbers) > MOST_NUMBERS:
        raise NotCarried(f"path over {MOST_NUMBERS} numbers")
    return numbers


def community(text):
    text = WELL_KNOWN.get(text, text)
    high, _, low = text.partition(":")
    if not (is_number(high) and is_number(low)) or max(int(high), int(low)) > 65535:
        raise NotCarried("community that isn't two numbers of 16 bits")
    return f"{int(high)}:{int(low)}"


def communities(words):
    """The different communities, in their order."""
    found = list(dict.fromkeys(community(word) for word in words))
    if len(found) > MOST_COMMUNITIES:
        raise NotCarried(f"over {MOST_COMMUNITIES} communities")
    return found


def route_words(family, hop, numbers, origin, med=None, lp=None, igp=None, com=()):
    """What stands behind the net in an `add`."""
    hop_family, octets = address(hop)
    if hop_family != family:
        raise NotCarried("next hop of the other family")
    if origin not in ORIGINS:
        raise NotCarried("route without an origin")
    words = ["via", spelled(octets), "path", *numbers, "origin", ORIGINS[origin]]
    for name, value in (("med", med), ("lp", lp), ("igp", igp)):
        if value is not None:
            words += [name, number(value, name)]
    if com:
        words += ["com", *com]
    return " ".join(words)


# ---- the files that are written


@dataclass
class Scripts:
    """Scripts of one stem, each of which can be played alone.

    A file is begun where the next lines would pass the limit. It opens the sessions that are up.
    Lines of one net that follow one another are kept together.
    """

    stem: str
    limit: int
    up: dict  # the neighbours whose sessions are up, by name
    files: list = field(default_factory=list)
    out: object = None
    size: int = 0
    net: str = ""
    group: list = field(default_factory=list)
    group_size: int = 0

    def head(self):
        return "".join(f"@{up.name} open {up.router_id}\n" for up in self.up.values())

    def begin(self):
        self.end()
        head = self.head()
        if len(head) + max(self.group_size, self.limit // 4) > self.limit:
            raise SystemExit("feeds: the limit is too small for the lines that stand together")
        name = f"{self.stem}.{len(self.files) + 1:03}.script"
        self.out = open(name, "w", encoding="ascii", newline="\n")
        self.files.append(name)
        self.out.write(head)
        self.size = len(head)

    def end(self):
        if self.out is not None:
            self.out.close()
            self.out = None

    def flush(self):
        """Writes the lines that are kept together."""
        if not self.group:
            return
        if self.out is None or self.size + self.group_size > self.limit:
            self.begin()
        self.out.write("".join(self.group))
        self.size += self.group_size
        self.group, self.group_size = [], 0

    def put(self, line, net):
        if net != self.net or self.group_size + len(line) > self.limit // 4:
            self.flush()
            self.net = net
        self.group.append(line)
        self.group_size += len(line)

    def session(self, neighbour, is_up):
        """A session comes up or ends."""
        self.flush()
        if self.out is None:
            self.begin()
        if is_up:
            self.put(f"@{neighbour.name} open {neighbour.router_id}\n", "")
        else:
            self.put(f"@{neighbour.name} close\n", "")
        self.flush()
        if is_up:
            self.up[neighbour.name] = neighbour
        else:
            self.up.pop(neighbour.name, None)

    def close(self):
        self.flush()
        if not self.files:
            self.begin()
        self.end()


class Feed:
    """Where what is read goes: to the script of its net, or into a count."""

    def __init__(self, neighbours, parts, told):
        self.neighbours = neighbours  # by key and family
        self.keys = {key for key, _ in neighbours}
        self.parts = parts
        self.told = told
        self.met = set()
        self.down = set()  # those whose session ended
        self.net = ""
        self.of_net = set()  # those that had a route of this net in a table

    def neighbour(self, key, family):
        found = self.neighbours.get((key, family))
        if found is None:
            self.told.count("unnamed", f"{key} IPv{family}")
        else:
            self.met.add(found)
        return found

    def part_of(self, net):
        return self.parts[zlib.crc32(net.encode()) % len(self.parts)]

    def add(self, key, net, words_of, is_update):
        """Writes an announcement, whose words `words_of` gives for its family.

        In an update it may replace a route, so one that can't be said is a withdrawal.
        """
        family, net = prefix(net, self.told)
        neighbour = self.neighbour(key, family)
        if neighbour is None:
            return
        try:
            words = words_of(family)
        except NotCarried:
            if is_update:
                self.told.count("written", "del in place of an add")
                self.part_of(net).put(f"@{neighbour.name} del {net}\n", net)
            raise
        if not is_update:
            self.count_further(neighbour, net)
        if neighbour in self.down:
            self.told.count("read so", "route behind the end of its session, as up again")
            self.turn(neighbour, True)
        self.told.count("written", "add")
        self.part_of(net).put(f"@{neighbour.name} add {net} {words}\n", net)

    def count_further(self, neighbour, net):
        """Counts a neighbour's further routes of one net in a table: a script keeps the last."""
        if net != self.net:
            self.net, self.of_net = net, set()
        if neighbour in self.of_net:
            self.told.count("read so", "further route of a neighbour's net, in place of the first")
        self.of_net.add(neighbour)

    def withdraw(self, key, net):
        family, net = prefix(net, self.told)
        neighbour = self.neighbour(key, family)
        if neighbour is not None:
            self.told.count("written", "del")
            self.part_of(net).put(f"@{neighbour.name} del {net}\n", net)

    def session(self, key, is_up):
        """A session comes up, without what it had before, or ends."""
        if key not in self.keys:
            self.told.count("unnamed", f"{key} (its session)")
        for family in (4, 6):
            neighbour = self.neighbours.get((key, family))
            if neighbour is None:
                continue
            if is_up and neighbour not in self.down:
                self.told.count("read so", "session that comes up while it is up, as ended first")
                self.turn(neighbour, False)
            self.turn(neighbour, is_up)

    def turn(self, neighbour, is_up):
        self.told.count("written", "open" if is_up else "close")
        for part in self.parts:
            part.session(neighbour, is_up)
        if is_up:
            self.down.discard(neighbour)
        else:
            self.down.add(neighbour)


# ---- bgpdump -m

ESTABLISHED = "6"
FIELDS = {"STATE": 7, "W": 6, "A": 14, "B": 14}  # at least, by the kind of line


def or_none(text):
    """bgpdump writes 0 for a MED or a local preference that isn't there."""
    return None if text == "0" else text


def count_unsaid(behind, told):
    """Counts what stands behind the communities, which a script doesn't say."""
    marks = ("AG", "NAG")
    large = "" if behind[0] in marks else behind.pop(0)  # by its option -l
    if len(behind) < 2 or behind[0] not in marks:
        raise NotCarried("line of another form")
    mark, aggregator, *others = behind  # others by its option -u
    unsaid = {
        "large communities": large,
        "atomic aggregate": mark == "AG",
        "aggregator": aggregator,
        "unassigned attributes": any(others),
    }
    for what, is_there in unsaid.items():
        if is_there:
            told.count("without", what)


def announced(fields, told):
    """The words of a line of bgpdump, by its fields from the path on."""
    as_path, origin, hop, lp, med, com = fields[:6]

    def words_of(family):
        words = route_words(
            family,
            hop,
            path(as_path),
            origin,
            or_none(med),
            or_none(lp),
            None,
            communities(com.split()),
        )
        count_unsaid(fields[6:], told)
        if med == "0":
            told.count("read so", "MED 0, as none")
        return words

    return words_of


def read_bgpdump_line(line, feed, told):
    fields = line.split("|")
    if fields[0] not in ("TABLE_DUMP", "TABLE_DUMP2", "BGP4MP", "BGP4MP_ET"):
        known = re.fullmatch("[A-Z0-9_]{1,20}", fields[0])
        raise NotCarried(f"line of kind {fields[0]}" if known else "line of another form")
    kind = fields[2] if len(fields) > 2 else ""
    if kind not in FIELDS:
        raise NotCarried("line of another form")
    if len(fields) < FIELDS[kind]:
        raise NotCarried("line with too few fields")
    peer = fields[3]
    if kind == "STATE":
        change_state(peer, fields[5], fields[6], feed, told)
    elif kind == "W":
        feed.withdraw(peer, fields[5])
    else:
        feed.add(peer, fields[5], announced(fields[6:], told), kind == "A")


def change_state(peer, old, new, feed, told):
    if (old == ESTABLISHED) != (new == ESTABLISHED):
        feed.session(peer, new == ESTABLISHED)
    else:
        told.count("read so", "change of state between others than up, as nothing")


def read_bgpdump(lines, feed, told):
    for line in lines:
        told.line += 1
        try:
            read_bgpdump_line(line.rstrip("\r\n"), feed, told)
        except NotCarried as reason:
            told.count("not carried", str(reason))


# ---- BIRD's show route all

HEADER = re.compile(
    r"(?P<net>\S*)\s+(?:(?P<kind>[a-z]+) )?"  # unicast, unreachable, recursive, ..
    r"\[(?P<protocol>[^\s\]]+)(?: [^\]]*)?\](?: [*!])? "  # ! is a best that the kernel lacks
    r"\((?P<preference>\d+)[-a-z]*(?:/(?P<igp>\d+|\?|-))?\)"
)
PAIR = re.compile(r"\((\d+),\s*(\d+)\)")
UNKNOWN_METRIC = str(1 << 31)  # what BIRD compares where it shows `?`
# what 2.x and 3.x call an attribute
NAMES = {
    "BGP.origin": "origin",
    "bgp_origin": "origin",
    "BGP.as_path": "path",
    "bgp_path": "path",
    "BGP.next_hop": "hop",
    "bgp_next_hop": "hop",
    "BGP.med": "med",
    "bgp_med": "med",
    "BGP.local_pref": "lp",
    "bgp_local_pref": "lp",
    "BGP.community": "com",
    "bgp_community": "com",
    "igp_metric": "igp",
    "Type": "type",
    "source": "type",
}
# what says nothing of the route as it was announced
PASSED = ("preference", "from", "hostentry", "Internal route handling values")


@dataclass
class Shown:
    """A route of `show route all`, as it is read."""

    line: int
    net: str
    header: re.Match
    values: dict = field(default_factory=dict)
    others: list = field(default_factory=list)
    last: str = ""

    def attribute(self, line):
        name, _, value = line.strip().partition(":")
        if line.startswith("\t\t"):  # the rest of a long list
            if self.last:
                self.values[self.last] += " " + line.strip()
        elif name in NAMES:
            self.last = NAMES[name]
            self.values[self.last] = value.strip()
        elif name.startswith(("via ", "dev ")):
            self.last = ""
        else:
            self.last = ""
            if name not in PASSED:
                self.others.append(name)

    def pairs(self):
        text = self.values.get("com", "")
        if PAIR.sub("", text).strip():
            raise NotCarried("community that isn't two numbers of 16 bits")
        return communities(f"{high}:{low}" for high, low in PAIR.findall(text))

    def metric(self):
        """The IGP metric: an attribute in 3.x, else what the header shows."""
        if "igp" in self.values:
            return self.values["igp"]
        shown = self.header["igp"]
        if shown == "?":
            return UNKNOWN_METRIC
        if shown == "-" or {"BGP.aigp", "bgp_aigp"} & set(self.others):
            return None  # no way to the next hop, or the AIGP metric is shown
        return shown

    def words(self, family, told):
        values = self.values
        hops = values.get("hop", "").split()
        if not hops:
            raise NotCarried("route without a next hop")
        words = route_words(
            family,
            hops[0],
            path(values.get("path", "")),
            values.get("origin", "").upper(),
            values.get("med"),
            values.get("lp"),
            self.metric(),
            self.pairs(),
        )
        self.count_unsaid(hops, told)
        return words

    def count_unsaid(self, hops, told):
        for name in self.others:
            told.count("without", name)
        if len(hops) > 1:
            told.count("without", "second next hop")
        if self.header["kind"] not in ("unicast", "recursive", None):
            told.count("without", f"destination {self.header['kind']}")
        if self.header["preference"] != "100":
            told.count("without", "preference other than 100")


def put_shown(shown, feed, told):
    """Writes the route that was read, at the line of its header."""
    if shown is None:
        return
    line, told.line = told.line, shown.line
    try:
        if not shown.values.get("type", "").startswith("BGP"):
            raise NotCarried("route of no BGP protocol")
        protocol = shown.header["protocol"]
        feed.add(protocol, shown.net, lambda family: shown.words(family, told), False)
    except NotCarried as reason:
        told.count("not carried", str(reason))
    told.line = line


def read_bird(lines, feed, told):
    shown, net = None, ""
    for line in lines:
        told.line += 1
        line = line.rstrip("\r\n")
        if line.startswith("\t") and shown is not None:
            shown.attribute(line)
            continue
        header = HEADER.match(line)
        put_shown(shown, feed, told)
        shown = None
        if header is not None:
            net = header["net"] or net
            shown = Shown(told.line, net, header)
        elif line.startswith("Table "):
            net = ""
            told.count("tables", line[6:].rstrip(":"))
        elif line.strip() and not line.startswith("BIRD "):
            net = ""  # what comes next may be a further route of a net that wasn't read
            told.count("not carried", "line of another form")
    put_shown(shown, feed, told)


# ---- the command line


def named(text, family):
    """KEY=NAME[,ROUTER-ID]"""
    key, equals, rest = text.partition("=")
    name, _, router_id = rest.partition(",")
    router_id = router_id or key
    try:
        socket.inet_pton(socket.AF_INET, router_id)
    except OSError:
        raise SystemExit(f"feeds: {text}: no router id (KEY=NAME,ROUTER-ID)") from None
    if not equals or not key or not re.fullmatch(r"[A-Za-z0-9_.:-]{1,64}", name):
        raise SystemExit(f"feeds: {text}: not KEY=NAME or KEY=NAME,ROUTER-ID")
    return (key, family), Neighbour(name, router_id)


def neighbours_of(options):
    given = [named(text, 4) for text in options.peer4] + [named(text, 6) for text in options.peer6]
    names = [neighbour.name for _, neighbour in given]
    if len(dict(given)) < len(given) or len(set(names)) < len(names):
        raise SystemExit("feeds: a neighbour or a protocol is named twice")
    if len(names) > MOST_ACTORS:
        raise SystemExit(f"feeds: a script has at most {MOST_ACTORS} actors")
    return dict(given)


def scripts_of(options, neighbours):
    up = {neighbour.name: neighbour for neighbour in neighbours.values()}
    if options.parts == 1:
        return [Scripts(options.to, options.limit, up)]
    stems = [f"{options.to}.{part}of{options.parts}" for part in range(1, options.parts + 1)]
    return [Scripts(stem, options.limit, dict(up)) for stem in stems]


def tell(told, parts, feed, err):
    groups = (
        ("written", "written"),
        ("not carried", "not carried"),
        ("without", "carried without"),
        ("read so", "read"),
        ("unnamed", "neighbour that isn't named"),
        ("tables", "table"),
    )
    files = [name for part in parts for name in part.files]
    print(f"feeds: {told.line} lines read, {len(files)} files: {' '.join(files)}", file=err)
    for group, words in groups:
        for text in told.lines(group):
            print(f"feeds: {words}: {text}", file=err)
    for neighbour in feed.neighbours.values():
        if neighbour not in feed.met:
            print(f"feeds: no net of {neighbour.name}", file=err)


def options_of(words):
    parser = argparse.ArgumentParser(
        prog="feeds.py",
        description="Turns a feed of BGP routes into scripts for birdcore.",
        epilog="KEY is the neighbour's address in a feed of bgpdump, its protocol's name in one of "
        "BIRD. NAME is the bgp protocol of birdcore's configuration. Without ROUTER-ID it is KEY.",
    )
    parser.add_argument("format", choices=["bgpdump", "bird"], help="who printed the feed")
    parser.add_argument("file", nargs="?", default="-", help="the feed; standard input otherwise")
    peer = "KEY=NAME[,ROUTER-ID]"
    for family in (4, 6):
        parser.add_argument(
            f"--peer{family}",
            metavar=peer,
            action="append",
            default=[],
            help=f"the neighbour's IPv{family} nets go to NAME (repeat for others)",
        )
    parser.add_argument("--to", metavar="STEM", default="feed", help="files are STEM.001.script ..")
    parser.add_argument(
        "--parts", type=int, default=1, metavar="N", help="N scripts, each net in one of them"
    )
    parser.add_argument(
        "--limit", type=int, default=MOST_BYTES, metavar="BYTES", help="of a script (2^24)"
    )
    options = parser.parse_intermixed_args(words)
    if options.parts < 1 or not 1 <= options.limit <= MOST_BYTES:
        parser.error("N is at least 1, BYTES from 1 to 2^24")
    return options


def convert(options, stdin, err):
    told = Told()
    neighbours = neighbours_of(options)
    parts = scripts_of(options, neighbours)
    feed = Feed(neighbours, parts, told)
    read = read_bgpdump if options.format == "bgpdump" else read_bird
    if options.file == "-":
        read(stdin, feed, told)
    else:
        with open(options.file, encoding="ascii", errors="replace") as lines:
            read(lines, feed, told)
    for part in parts:
        part.close()
    tell(told, parts, feed, err)


def main(words, stdin, err):
    options = options_of(words)
    try:
        convert(options, stdin, err)
    except OSError as error:
        raise SystemExit(f"feeds: {error.filename or 'a file'}: {error.strerror}") from None


if __name__ == "__main__":
    sys.stdin.reconfigure(encoding="ascii", errors="replace")
    main(sys.argv[1:], sys.stdin, sys.stderr)
