#!/usr/bin/env python3
"""Tests of feeds.py, over small made-up feeds; run by `python3 tools/test_feeds.py`.

The lines that are wanted were worked out by hand from the formats: bgpdump 1.6.2 (-m, with -l and
-u), BIRD 2.17 and 3.4 (show route all), and birdcore's scripts.
"""

import io
import os
import tempfile
import unittest
from pathlib import Path

import feeds

PEERS = ["--peer4", "192.0.2.1=up1", "--peer4", "192.0.2.2=up2,10.0.0.2"]
PEERS6 = ["--peer6", "2001:db8::1=up6,10.0.0.1"]
OPENS = ["@up1 open 192.0.2.1", "@up2 open 10.0.0.2"]


def run(words, feed):
    """The scripts, by name, and what is told."""
    with tempfile.TemporaryDirectory() as folder:
        stem = os.path.join(folder, "x")
        err = io.StringIO()
        feeds.main([*words, "--to", stem], io.StringIO(feed), err)
        files = {path.name: path.read_text() for path in sorted(Path(folder).iterdir())}
        return files, err.getvalue().replace(folder + os.sep, "")


def lines_of(words, feed):
    """The lines of the one script, and what is told."""
    files, told = run(words, feed)
    return files["x.001.script"].splitlines(), told


def table(peer, net, path, rest="IGP|192.0.2.1|0|0||NAG||"):
    return f"TABLE_DUMP2|1700000000|B|{peer}|65001|{net}|{path}|{rest}\n"


class Bgpdump(unittest.TestCase):
    def test_a_table(self):
        feed = (
            table(
                "192.0.2.1",
                "198.51.100.0/24",
                "65001 65010",
                "IGP|192.0.2.1|0|10|65001:7 no-export|NAG||",
            )
            + table("192.0.2.2", "198.51.100.0/24", "65002", "EGP|192.0.2.9|70|0||NAG||")
            + table("2001:db8::1", "2001:db8:1::/48", "65001", "INCOMPLETE|2001:db8::1|0|0||NAG||")
        )
        lines, told = lines_of(["bgpdump", *PEERS, *PEERS6], feed)
        wanted = [
            *OPENS,
            "@up6 open 10.0.0.1",
            "@up1 add 198.51.100.0/24 via 192.0.2.1 path 65001 65010 origin igp med 10 "
            "com 65001:7 65535:65281",
            "@up2 add 198.51.100.0/24 via 192.0.2.9 path 65002 origin egp lp 70",
            "@up6 add 2001:db8:1::/48 via 2001:db8::1 path 65001 origin incomplete",
        ]
        self.assertEqual(lines, wanted)
        self.assertIn("feeds: 3 lines read, 1 files: x.001.script\n", told)
        self.assertIn("feeds: written: add: 3 (first in line 1)\n", told)
        self.assertIn("feeds: read: MED 0, as none: 2 (first in line 2)\n", told)

    def test_updates(self):
        feed = (
            "BGP4MP|1700000001|A|192.0.2.1|65001|198.51.100.0/24|65001|IGP|192.0.2.1|0|0||NAG||\n"
            "BGP4MP_ET|1700000002.5|A|192.0.2.1|65001|198.51.100.0/24|65001 {65011,65012}|IGP"
            "|192.0.2.1|0|0||AG|65011 192.0.2.7|\n"
            "BGP4MP|1700000003|W|192.0.2.2|65002|203.0.113.0/24\n"
            "BGP4MP|1700000004|STATE|192.0.2.2|65002|6|1\n"
            "BGP4MP|1700000005|STATE|192.0.2.2|65002|1|3\n"
            "BGP4MP|1700000006|STATE|192.0.2.2|65002|5|6\n"
        )
        lines, told = lines_of(["bgpdump", *PEERS], feed)
        wanted = [
            *OPENS,
            "@up1 add 198.51.100.0/24 via 192.0.2.1 path 65001 origin igp",
            "@up1 del 198.51.100.0/24",
            "@up2 del 203.0.113.0/24",
            "@up2 close",
            "@up2 open 10.0.0.2",
        ]
        self.assertEqual(lines, wanted)
        self.assertIn("feeds: not carried: AS set in the path: 1 (first in line 2)\n", told)
        self.assertIn("feeds: written: del in place of an add: 1 (first in line 2)\n", told)

    def test_what_is_not_carried(self):
        good = "IGP|192.0.2.1|0|0||NAG||"
        over = " ".join(f"65001:{n}" for n in range(65))
        cases = [
            (table("192.0.2.1", "198.51.100.0/24", "65001 {65011}"), "AS set in the path"),
            (table("192.0.2.1", "198.51.100.0/24", "(65011 65012) 65001"), "confederation segment"),
            (table("192.0.2.1", "198.51.100.0/24", "65001 [65011]"), "confederation segment"),
            (table("192.0.2.1", "198.51.100.0/24", "65001 " * 121), "path over 120 numbers"),
            (table("192.0.2.1", "198.51.100.0/24", "65001 ..."), "path with a word"),
            (table("192.0.2.1", "198.51.100.0/33", "65001"), "prefix that isn't one"),
            (table("192.0.2.1", "198.51.100/24", "65001"), "address that isn't one"),
            (
                table("192.0.2.1", "198.51.100.0/24", "65001", f"IGP|192.0.2.1|0|0|{over}|NAG||"),
                "over 64 communities",
            ),
            (
                table("192.0.2.1", "198.51.100.0/24", "65001", "IGP|192.0.2.1|0|0|odd|NAG||"),
                "community that isn't two numbers",
            ),
            (
                table("192.0.2.1", "198.51.100.0/24", "65001", "IGP|2001:db8::1|0|0||NAG||"),
                "next hop of the other family",
            ),
            (
                f"TABLE_DUMP2_AP|1|B|192.0.2.1|65001|198.51.100.0/24|7|65001|{good}\n",
                "line of kind TABLE_DUMP2_AP",
            ),
            ("BGP4MP|1|A|192.0.2.1|65001|198.51.100.0/24|65001\n", "line with too few fields"),
            ("nonsense\n", "line of another form"),
            ("TABLE_DUMP2|17|1700000000|B|192.0.2.1|65001\n", "line of another form"),  # by -p
            ("TABLE_DUMP2|1700000000\n", "line of another form"),
            (
                table("192.0.2.1", "198.51.100.0/24", "65001", "IGP|192.0.2.1|0|0||odd|odd||"),
                "line of another form",
            ),
            (
                table("192.0.2.1", "198.51.100.0/24", "65001", "IGP|192.0.2.1|0|0||1:2:3|NAG"),
                "line of another form",
            ),
        ]
        for feed, reason in cases:
            with self.subTest(reason=reason):
                lines, told = lines_of(["bgpdump", *PEERS], feed)
                self.assertEqual([line for line in lines if " add " in line], [])
                self.assertIn(f"feeds: not carried: {reason}", told)

    def test_what_is_carried_in_part(self):
        feed = table(
            "192.0.2.1",
            "198.51.100.0/24",
            "65001",
            "IGP|192.0.2.1|0|5|65001:7 65001:7|65001:1:2|AG|65011 192.0.2.7|",
        )
        lines, told = lines_of(["bgpdump", *PEERS], feed)
        add = "@up1 add 198.51.100.0/24 via 192.0.2.1 path 65001 origin igp med 5 com 65001:7"
        self.assertEqual(lines, [*OPENS, add])
        for name in ("large communities", "atomic aggregate", "aggregator"):
            self.assertIn(f"feeds: carried without: {name}: 1 (first in line 1)\n", told)

    def test_fields_behind_the_communities(self):
        net = "198.51.100.0/24"
        cases = [
            ("IGP|192.0.2.1|0|5||AG||", ["atomic aggregate"]),
            ("IGP|192.0.2.1|0|5|||NAG||", []),  # by -l
            ("IGP|192.0.2.1|0|5||AG|65011 192.0.2.7||", ["atomic aggregate", "aggregator"]),  # -u
            ("IGP|192.0.2.1|0|5||NAG||63:e0:616263|", ["unassigned attributes"]),
            ("IGP|192.0.2.1|0|5||1:2:3|AG|||", ["large communities", "atomic aggregate"]),  # both
        ]
        for rest, names in cases:
            with self.subTest(rest=rest):
                lines, told = lines_of(["bgpdump", *PEERS], table("192.0.2.1", net, "65001", rest))
                self.assertIn(f"@up1 add {net} via 192.0.2.1 path 65001 origin igp med 5", lines)
                without = [line for line in told.splitlines() if "carried without" in line]
                self.assertEqual([line.split(": ")[2] for line in without], names)

    def test_bits_behind_a_length(self):
        feed = (
            table("192.0.2.1", "198.51.103.0/23", "65001", "IGP|192.0.2.1|0|5||NAG||")
            + "BGP4MP|1|W|192.0.2.1|65001|198.51.103.0/23\n"
            + table("2001:db8::1", "2001:db8:f::/45", "65001", "IGP|2001:db8::1|0|5||NAG||")
        )
        lines, told = lines_of(["bgpdump", *PEERS, *PEERS6], feed)
        wanted = [
            "@up1 add 198.51.102.0/23 via 192.0.2.1 path 65001 origin igp med 5",
            "@up1 del 198.51.102.0/23",
            "@up6 add 2001:db8:8::/45 via 2001:db8::1 path 65001 origin igp med 5",
        ]
        self.assertEqual(lines[3:], wanted)
        self.assertIn("feeds: read: prefix with bits behind its length, as zeros: 3 (first", told)

    def test_a_net_in_two_spellings(self):
        rest = "IGP|2001:DB8:0::1|0|5||NAG||"
        feed = table("2001:db8::1", "2001:DB8:0::/032", "65001", rest)
        lines, _ = lines_of(["bgpdump", *PEERS6], feed)
        self.assertEqual(
            lines[1], "@up6 add 2001:db8::/32 via 2001:db8::1 path 65001 origin igp med 5"
        )

    def test_a_session_that_comes_up_while_it_is_up(self):
        feed = table("192.0.2.1", "198.51.100.0/24", "65001") + (
            "BGP4MP|1|STATE|192.0.2.1|65001|5|6\n"
        )
        lines, told = lines_of(["bgpdump", *PEERS], feed)
        self.assertEqual(lines[3:], ["@up1 close", "@up1 open 192.0.2.1"])
        self.assertIn("read: session that comes up while it is up, as ended first: 1 (", told)

    def test_routes_behind_the_end_of_a_session(self):
        feed = (
            "BGP4MP|1|STATE|192.0.2.1|65001|6|1\n"
            "BGP4MP|2|W|192.0.2.1|65001|203.0.113.0/24\n"
            "BGP4MP|3|A|192.0.2.1|65001|198.51.100.0/24|65001|IGP|192.0.2.1|0|0||NAG||\n"
            "BGP4MP|4|A|192.0.2.1|65001|203.0.113.0/24|65001|IGP|192.0.2.1|0|0||NAG||\n"
        )
        lines, told = lines_of(["bgpdump", *PEERS], feed)
        wanted = [
            *OPENS,
            "@up1 close",
            "@up1 del 203.0.113.0/24",
            "@up1 open 192.0.2.1",
            "@up1 add 198.51.100.0/24 via 192.0.2.1 path 65001 origin igp",
            "@up1 add 203.0.113.0/24 via 192.0.2.1 path 65001 origin igp",
        ]
        self.assertEqual(lines, wanted)
        self.assertIn("read: route behind the end of its session, as up again: 1 (first in", told)

    def test_further_routes_of_a_net(self):
        net = "198.51.100.0/24"
        feed = (
            table("192.0.2.1", net, "65001")
            + table("192.0.2.2", net, "65002")
            + table("192.0.2.1", net, "65003")
            + table("192.0.2.1", "203.0.113.0/24", "65001")
        )
        lines, told = lines_of(["bgpdump", *PEERS], feed)
        self.assertEqual(len(lines), 6)
        further = "feeds: read: further route of a neighbour's net, in place of the first: "
        self.assertIn(further + "1 (first in line 3)\n", told)
        update = feed.replace("TABLE_DUMP2", "BGP4MP").replace("|B|", "|A|")
        self.assertNotIn("further", lines_of(["bgpdump", *PEERS], update)[1])

    def test_the_most_that_is_carried(self):
        com = " ".join(f"65001:{n}" for n in range(64))
        feed = table(
            "192.0.2.1", "0.0.0.0/0", " ".join(["65001"] * 120), f"IGP|192.0.2.1|0|1|{com}|NAG||"
        )
        lines, _ = lines_of(["bgpdump", *PEERS], feed)
        self.assertEqual(len(lines), 3)
        self.assertEqual(lines[2].count("65001 "), 120)
        self.assertTrue(lines[2].endswith(" 65001:63"))

    def test_an_address_in_an_address(self):
        net = "::ffff:192.0.2.0/120"
        feed = table("2001:db8::1", net, "65001", "IGP|2001:db8::1|0|1||NAG||")
        lines, _ = lines_of(["bgpdump", *PEERS6], feed)
        self.assertIn("@up6 add 0000:0000:0000:0000:0000:ffff:c000:0200/120 via ", lines[1])

    def test_neighbours_that_are_not_named(self):
        feed = (
            table("192.0.2.3", "198.51.100.0/24", "65001") * 2
            + table("192.0.2.1", "2001:db8::/32", "65001", "IGP|2001:db8::1|0|0||NAG||")
            + "BGP4MP|1|STATE|192.0.2.3|65003|6|1\n"
        )
        lines, told = lines_of(["bgpdump", *PEERS], feed)
        self.assertEqual(lines, OPENS)
        unnamed = "feeds: neighbour that isn't named: "
        self.assertIn(unnamed + "192.0.2.3 IPv4: 2 (first in line 1)\n", told)
        self.assertIn(unnamed + "192.0.2.1 IPv6: 1 (first in line 3)\n", told)
        self.assertIn(unnamed + "192.0.2.3 (its session): 1 (first in line 4)\n", told)
        self.assertIn("feeds: no net of up1\n", told)


BIRD_2 = """\
BIRD 2.17.6 ready.
Table master4:
198.51.100.0/24      unicast [transit1 10:48:54.654] * (100/20) [AS65010i]
\tvia 192.0.2.1 on eth0
\tType: BGP univ
\tBGP.origin: IGP
\tBGP.as_path: 65001 65010
\tBGP.next_hop: 192.0.2.1
\tBGP.med: 0
\tBGP.local_pref: 100
\tBGP.community: (65000,1) (65535,65281)
\tBGP.large_community: (65000, 1, 2)
                     unreachable [transit2 10:48:54.629 from 192.0.2.2] (100) [AS65011?]
\tType: BGP univ
\tBGP.origin: Incomplete
\tBGP.as_path: 65002 {65011 65012}
\tBGP.next_hop: 192.0.2.2
\tBGP.local_pref: 100
203.0.113.0/24       unreachable [aggregate 10:48:53.819] * (200)
\tType: static univ

Table master6:
2001:db8:1::/48      unicast [transit6 10:48:54.696] * (100) [AS65001i]
\tvia fe80::1 on eth0
\tType: BGP univ
\tBGP.origin: IGP
\tBGP.as_path: 65001
\tBGP.next_hop: 2001:db8::1 fe80::1
\tBGP.local_pref: 100
"""

BIRD_3 = """\
Table master4:
198.51.100.0/24      unicast [transit1 10:49:08.179 from 192.0.2.1] * (100) [AS65010e]
\tvia 192.0.2.1 on eth0
\thostentry: via 192.0.2.1 table master4
\tpreference: 100
\tfrom: 192.0.2.1
\tsource: BGP
\tbgp_origin: EGP
\tbgp_path: 65001 65010
\tbgp_next_hop: 192.0.2.1
\tbgp_med: 10
\tbgp_local_pref: 90
\tbgp_community: (65000,1)
\t\t(65000,2)
\tInternal route handling values: 0L 4G 0S id 1
                     recursive [transit2 10:49:07.948 from 192.0.2.2] (130) [i]
\tvia 192.0.2.2 on eth0
\tsource: BGP
\tbgp_origin: IGP
\tbgp_path:\x20
\tbgp_next_hop: 192.0.2.2
"""


class Bird(unittest.TestCase):
    peers = ["--peer4", "transit1=up1,10.0.0.1", "--peer4", "transit2=up2,10.0.0.2"]

    def test_version_2(self):
        peers6 = ["--peer6", "transit6=up6,10.0.0.1"]
        lines, told = lines_of(["bird", *self.peers, *peers6], BIRD_2)
        wanted = [
            "@up1 open 10.0.0.1",
            "@up2 open 10.0.0.2",
            "@up6 open 10.0.0.1",
            "@up1 add 198.51.100.0/24 via 192.0.2.1 path 65001 65010 origin igp med 0 lp 100 "
            "igp 20 com 65000:1 65535:65281",
            "@up6 add 2001:db8:1::/48 via 2001:db8::1 path 65001 origin igp lp 100",
        ]
        self.assertEqual(lines, wanted)
        self.assertIn("feeds: not carried: AS set in the path: 1 (first in line 13)\n", told)
        self.assertIn("feeds: not carried: route of no BGP protocol: 1 (first in line 19)\n", told)
        self.assertIn("feeds: carried without: BGP.large_community: 1 (first in line 3)\n", told)
        self.assertIn("feeds: carried without: second next hop: 1 (first in line 23)\n", told)

    def test_version_3(self):
        lines, told = lines_of(["bird", *self.peers], BIRD_3)
        wanted = [
            "@up1 open 10.0.0.1",
            "@up2 open 10.0.0.2",
            "@up1 add 198.51.100.0/24 via 192.0.2.1 path 65001 65010 origin egp med 10 lp 90 "
            "com 65000:1 65000:2",
            "@up2 add 198.51.100.0/24 via 192.0.2.2 path origin igp",
        ]
        self.assertEqual(lines, wanted)
        self.assertNotIn("not carried", told)
        self.assertIn("carried without: preference other than 100: 1 (first in line 16)\n", told)

    def test_lines_of_another_form(self):
        lines, told = lines_of(["bird", *self.peers], "Network not found\n\tvia 192.0.2.1\n")
        self.assertEqual(lines, ["@up1 open 10.0.0.1", "@up2 open 10.0.0.2"])
        self.assertIn("feeds: not carried: line of another form: 2 (first in line 1)\n", told)

    def route(self, header, *attributes):
        lines = [header, "\tType: BGP univ", "\tBGP.origin: IGP", "\tBGP.as_path: 65001"]
        rest = [f"\t{line}" for line in ("BGP.next_hop: 192.0.2.1", *attributes)]
        return "".join(f"{line}\n" for line in lines + rest)

    def test_headers(self):
        from_us = "[transit1 12:14:12.885 from 127.0.0.1]"
        cases = [
            (f"unicast {from_us} ! (100) [AS65001i]", "", None),  # the kernel lacks it
            (f"unicast {from_us} (100-) [AS65001i]", "", None),  # by deterministic med
            (f"unicast {from_us} * (100s/7) [i]", " igp 7", None),
            (f"unicast {from_us} * (100/?) [AS65001i]", " igp 2147483648", None),
            (f"blackhole {from_us} * (100) [AS65001i]", "", "destination blackhole"),
            (f"unreachable {from_us} (100/-) [AS65001i]", "", "destination unreachable"),
            (f" {from_us} (100) [AS65001i]", "", None),
            ("unicast [transit1 2026-11-29] * (90) [i]", "", "preference other than 100"),
        ]
        for header, metric, without in cases:
            with self.subTest(header=header):
                feed = self.route(f"198.51.100.0/24      {header}")
                lines, told = lines_of(["bird", *self.peers], feed)
                add = f"@up1 add 198.51.100.0/24 via 192.0.2.1 path 65001 origin igp{metric}"
                self.assertEqual(lines[2:], [add])
                counted = f"without: {without}: 1" in told if without else "without" not in told
                self.assertTrue(counted, told)

    def test_metrics(self):
        header = "198.51.100.0/24      unicast [transit1 12:14:12.885] * (100/25) [AS65001i]"
        cases = [
            ([], " igp 25"),
            (["BGP.aigp: 20"], ""),  # 25 is the AIGP metric and the way to the next hop
            (["igp_metric: 5", "bgp_aigp: 20"], " igp 5"),
        ]
        for attributes, metric in cases:
            with self.subTest(attributes=attributes):
                lines, _ = lines_of(["bird", *self.peers], self.route(header, *attributes))
                add = f"@up1 add 198.51.100.0/24 via 192.0.2.1 path 65001 origin igp{metric}"
                self.assertEqual(lines[2:], [add])

    def test_a_way_by_a_device(self):
        feed = self.route("198.51.100.0/24      unicast [transit1 12:14:12] * (100) [i]", "dev lo")
        lines, told = lines_of(["bird", *self.peers], feed)
        self.assertEqual(len(lines), 3)
        self.assertNotIn("without", told)

    def test_a_further_route_behind_a_line_of_another_form(self):
        good = "unicast [transit1 12:14:12] * (100) [i]"
        further = " " * 21 + "unicast [transit2 12:14:12] (100) [i]"
        for line in ("flow4 { dst 10.0.0.0/8; } [transit1 12:14:12] * (100)", "Table master6:"):
            with self.subTest(line=line):
                feed = self.route(f"198.51.100.0/24      {good}") + line + "\n"
                lines, told = lines_of(["bird", *self.peers], feed + self.route(further))
                self.assertEqual([line for line in lines if line.startswith("@up2 add")], [])
                self.assertIn("feeds: not carried: address that isn't one: 1 (", told)

    def test_a_list_that_is_no_list(self):
        header = "198.51.100.0/24      unicast [transit1 12:14:12] * (100) [i]"
        for text in ("(65001,7) odd", "(65001,7) (65001,", "(65001,70000)"):
            with self.subTest(text=text):
                feed = self.route(header, f"BGP.community: {text}")
                lines, told = lines_of(["bird", *self.peers], feed)
                self.assertEqual(len(lines), 2)
                self.assertIn("not carried: community that isn't two numbers of 16 bits", told)

    def test_a_path_that_is_cut(self):
        header = "198.51.100.0/24      unicast [transit1 12:14:12] * (100) [i]"
        feed = self.route(header, "BGP.as_path: 65001 65002...")
        self.assertEqual(len(lines_of(["bird", *self.peers], feed)[0]), 2)


class Files(unittest.TestCase):
    def feed(self, nets):
        return "".join(
            table("192.0.2.1", f"198.51.100.{4 * n}/30", "65001")
            + table("192.0.2.2", f"198.51.100.{4 * n}/30", "65002")
            for n in range(nets)
        )

    def test_a_file_that_would_be_too_long(self):
        files, _ = run(["bgpdump", *PEERS, "--limit", "600"], self.feed(20))
        self.assertEqual(list(files)[:2], ["x.001.script", "x.002.script"])
        adds = []
        for text in files.values():
            lines = text.splitlines()
            self.assertLessEqual(len(text), 600)
            self.assertEqual(lines[:2], OPENS)
            # both routes of a net stand in one file
            self.assertEqual(len(lines) % 2, 0)
            adds += lines[2:]
        self.assertEqual(adds, lines_of(["bgpdump", *PEERS], self.feed(20))[0][2:])

    def test_a_file_behind_a_close(self):
        lines = self.feed(40).splitlines(keepends=True)
        feed = "BGP4MP|1|STATE|192.0.2.2|65002|6|1\n" + "".join(lines[::2])
        files, _ = run(["bgpdump", *PEERS, "--limit", "600"], feed)
        first, *others = files.values()
        self.assertEqual(first.splitlines()[:3], [*OPENS, "@up2 close"])
        self.assertTrue(others)
        for text in others:
            self.assertNotIn("@up2 open", text)

    def test_parts(self):
        files, _ = run(["bgpdump", *PEERS, "--parts", "3"], self.feed(40))
        self.assertEqual([name[:5] for name in files], ["x.1of", "x.2of", "x.3of"])
        nets = [
            {line.split()[2] for line in text.splitlines()[2:]} for text in files.values()
        ]
        self.assertEqual(sum(len(found) for found in nets), 40)
        self.assertEqual(len(set().union(*nets)), 40)
        self.assertTrue(all(nets))

    def test_a_limit_that_is_too_small(self):
        feed = table("192.0.2.1", "198.51.100.0/30", "65001")
        for limit in ("1", "40", "99"):
            with self.subTest(limit=limit), self.assertRaises(SystemExit):
                run(["bgpdump", *PEERS, "--limit", limit], feed)
        files, _ = run(["bgpdump", *PEERS, "--limit", "100"], feed)
        self.assertEqual([len(text) for text in files.values()], [100])

    def test_sessions_in_parts(self):
        feed = "BGP4MP|1|STATE|192.0.2.2|65002|6|1\n" + self.feed(40)
        files, _ = run(["bgpdump", *PEERS, "--parts", "3"], feed)
        for text in files.values():
            lines = text.splitlines()
            self.assertEqual(lines[:3], [*OPENS, "@up2 close"])
            opened = lines.index("@up2 open 10.0.0.2", 3)
            self.assertEqual([line for line in lines[3:opened] if line.startswith("@up2")], [])
            self.assertTrue(any(line.startswith("@up2 add") for line in lines[opened:]))

    def test_no_line(self):
        self.assertEqual(run(["bgpdump", *PEERS], "")[0], {"x.001.script": "\n".join(OPENS) + "\n"})


class Page(unittest.TestCase):
    def test_the_run_of_the_page(self):
        page = Path(__file__).resolve().parent.parent / "docs" / "FEEDS.md"
        shown = [line[4:] for line in page.read_text().splitlines() if line.startswith("    ")]
        feed = [line + "\n" for line in shown if "|" in line]
        peers = ["--peer4", "192.0.2.1=transit1", "--peer4", "192.0.2.2=transit2"]
        files, told = run(["bgpdump", *peers], "".join(feed))
        script = [line for line in shown if line.startswith("@")]
        self.assertEqual(files["x.001.script"].splitlines(), script)
        answers = [line for line in shown if line.startswith("feeds: ")]
        self.assertEqual(told.replace("x.001", "day.001").splitlines(), answers)


class Words(unittest.TestCase):
    def test_what_is_refused(self):
        cases = [
            ["--peer6", "2001:db8::1=up6"],  # no router id
            ["--peer4", "192.0.2.1"],
            ["--peer4", "192.0.2.1=a b"],
            ["--peer4", "192.0.2.1=up1", "--peer4", "192.0.2.2=up1"],
            ["--peer4", "192.0.2.1=up1", "--peer4", "192.0.2.1=up2"],
            [word for n in range(65) for word in ("--peer4", f"192.0.2.{n}=up{n}")],
        ]
        for words in cases:
            with self.subTest(words=words[:4]), self.assertRaises(SystemExit):
                run(["bgpdump", *words], "")

    def test_files_that_cannot_be_opened(self):
        with tempfile.TemporaryDirectory() as folder:
            lacking = os.path.join(folder, "lacking")
            for words in ([lacking], ["--to", os.path.join(lacking, "x")]):
                with self.subTest(words=words), self.assertRaises(SystemExit) as ended:
                    feeds.main(["bgpdump", *words], io.StringIO(""), io.StringIO())
                self.assertIn("lacking", str(ended.exception.code))
                self.assertIn("No such file", str(ended.exception.code))


if __name__ == "__main__":
    unittest.main()
