//! The job of `birdcore play` in plain Rust, for `play.py` to compare with: bgp and static protocols and pipes that
//! import and export all or none, with the standard library alone.
//!
//! It takes files of the forms that the loads have, and stops with a panic at any other. Like birdcore it reads both
//! files whole before it plays, and writes the report of a phase after the phase's sync. Texts are read and written
//! here; what lines do stands in plain_core.rs.

mod plain_core;

use plain_core::*;
use std::collections::{BTreeMap, HashMap};
use std::fmt::{self, Display, Formatter, Write as _};
use std::io::{self, BufWriter, Write};
use std::net::{IpAddr, Ipv4Addr};
use std::{env, fs};

/// A reply of the phase: its actor, its table and position, and its text.
struct Reply {
    actor: usize,
    table: usize,
    position: u64,
    text: String,
}

struct Names {
    protocols: HashMap<String, usize>,
    channels: HashMap<String, usize>,
    tables: HashMap<String, usize>,
}

#[derive(Default)]
struct Script {
    actors: Vec<String>,
    lines: Vec<Line>,
}

fn address(word: &str) -> IpAddr {
    word.parse().expect("an address")
}

fn number(word: &str) -> u32 {
    word.parse().expect("a number")
}

fn net(word: &str) -> Net {
    let (addr, len) = word.split_once('/').expect("a prefix");
    Net {
        addr: address(addr),
        len: len.parse().expect("a length"),
    }
}

fn router_id(word: &str) -> u32 {
    word.parse::<Ipv4Addr>().expect("a router id").into()
}

fn is_on(word: &str) -> bool {
    match word {
        "on" | "yes" | "all" => true,
        "off" | "no" | "none" => false,
        _ => panic!("on or off, all or none: {word}"),
    }
}

/// The options of a protocol, as last written.
struct Options {
    pipe: bool,
    v6: bool,
    table: Option<String>,
    peer: Option<String>,
    import: bool,
    export: bool,
    pref: Option<u32>,
    local: u32,
    neighbor: Option<(IpAddr, u32)>,
    communities: bool,
    med: u32,
    lp: u32,
    routes: BTreeMap<Net, (Dest, Option<IpAddr>)>,
}

impl Default for Options {
    fn default() -> Options {
        Options {
            pipe: false,
            v6: false,
            table: None,
            peer: None,
            import: true,
            export: false,
            pref: None,
            local: 0,
            neighbor: None,
            communities: true,
            med: 0,
            lp: 100,
            routes: BTreeMap::new(),
        }
    }
}

impl Options {
    fn set(&mut self, words: &[&str]) {
        match *words {
            ["ipv4"] => self.v6 = false,
            ["ipv6"] => self.v6 = true,
            ["table", name] => self.table = Some(name.to_string()),
            ["peer", "table", name] => self.peer = Some(name.to_string()),
            ["import", policy] => self.import = is_on(policy),
            ["export", policy] => self.export = is_on(policy),
            ["preference", value] => self.pref = Some(number(value)),
            ["local", "as", system] => self.local = number(system),
            ["neighbor", ip, "as", system] => self.neighbor = Some((address(ip), number(system))),
            ["med", "metric", word] => assert!(is_on(word)),
            ["interpret", "communities", word] => self.communities = is_on(word),
            ["default", "bgp_med", value] => self.med = number(value),
            ["default", "bgp_local_pref", value] => self.lp = number(value),
            ["route", prefix, "via", gw] => self.route(prefix, Dest::Unicast, Some(address(gw))),
            ["route", prefix, "blackhole"] => self.route(prefix, Dest::Blackhole, None),
            ["route", prefix, "unreachable"] => self.route(prefix, Dest::Unreachable, None),
            ["route", prefix, "prohibit"] => self.route(prefix, Dest::Prohibit, None),
            _ => panic!("an option: {words:?}"),
        }
    }

    fn route(&mut self, prefix: &str, dest: Dest, gw: Option<IpAddr>) {
        self.routes.insert(net(prefix), (dest, gw));
    }

    fn static_feeder(&self, pref: u32) -> Feeder {
        let routes = self.routes.iter();
        Feeder::Static(
            routes
                .map(|(net, (dest, gw))| (*net, static_attrs(pref, *dest, *gw).into()))
                .collect(),
        )
    }

    /// Puts the protocol behind the others, with its channels.
    fn add_to(self, name: String, system: &mut System) {
        let place = system.protocols.len();
        let number_of = |table: &str| {
            let is_table = |known: &Table| known.name == table;
            system.tables.iter().position(is_table).expect("a table")
        };
        let master = if self.v6 { "master6" } else { "master4" };
        let table = number_of(self.table.as_deref().unwrap_or(master));
        let pref = |default| self.pref.unwrap_or(default);
        let (body, channels) = match (self.neighbor, self.pipe) {
            (_, true) => {
                let peer = number_of(self.peer.as_deref().expect("a peer table"));
                let direction = |way, reads, target, passed| {
                    let passes = Vec::new();
                    let gate = Gate::Pipe { target, passes };
                    Channel::new(format!("{name}.{way}"), place, reads, gate, passed)
                };
                let out = direction("export", table, peer, self.export);
                let back = direction("import", peer, table, self.import);
                (Body::Pipe(true), vec![out, back])
            }
            (None, false) => {
                let feeder = self.static_feeder(pref(200));
                let importer = Importer::new(feeder, self.import, pref(200));
                (Body::Source { table, importer }, Vec::new())
            }
            (Some((neighbor, number)), false) => {
                let ebgp = number != self.local;
                let communities = self.communities;
                let gate = Gate::Bgp { ebgp, communities };
                let channel = Channel::new(name.clone(), place, table, gate, self.export);
                let session = Session {
                    neighbor,
                    ebgp,
                    router_id: 0,
                };
                let importer = Importer::new(Feeder::Bgp(session), self.import, pref(100));
                (Body::Source { table, importer }, vec![channel])
            }
        };
        system.channels.extend(channels);
        system.protocols.push(Protocol {
            name,
            source: Source {
                number: place,
                med: self.med,
                lp: self.lp,
            },
            body,
            ops: Vec::new(),
        });
    }
}

fn static_attrs(pref: u32, dest: Dest, gw: Option<IpAddr>) -> Attrs {
    Attrs {
        pref,
        kind: Kind::Static,
        dest,
        gw,
        sender: None,
        peer_id: 0,
        ebgp: false,
        path: [].into(),
        origin: None,
        next_hop: None,
        med: None,
        lp: None,
        igp: None,
        coms: [].into(),
    }
}

/// { protocol (bgp | static | pipe) NAME { OPTION; .. } | (ipv4 | ipv6) table NAME; }, where a channel's
/// options count as its protocol's.
fn read_config(text: &str, cells: u64) -> System {
    let mut system = System {
        cells,
        tables: vec![Table::new("master4"), Table::new("master6")],
        protocols: Vec::new(),
        channels: Vec::new(),
    };
    let mut open: Option<(String, Options)> = None;
    let mut depth = 0;
    for piece in text.split_inclusive(['{', '}', ';']) {
        let (words, sign) = piece.split_at(piece.len() - 1);
        let words: Vec<&str> = words.split_whitespace().collect();
        match (words.as_slice(), &mut open) {
            ([], _) => {}
            (["protocol", kind @ ("bgp" | "static" | "pipe"), name], None) => {
                let pipe = *kind == "pipe";
                let options = Options {
                    pipe,
                    ..Options::default()
                };
                open = Some((name.to_string(), options));
            }
            (["ipv4" | "ipv6", "table", name], None) => system.tables.push(Table::new(name)),
            (words, Some((_, options))) => options.set(words),
            (words, None) => panic!("a statement: {words:?}"),
        }
        match sign {
            "{" => depth += 1,
            "}" => depth -= 1,
            _ => {}
        }
        if depth == 0 && sign == "}" {
            let (name, options) = open.take().expect("a protocol");
            options.add_to(name, &mut system);
        }
    }
    let sources = system.protocols.len();
    for channel in &mut system.channels {
        if let Gate::Pipe { passes, .. } = &mut channel.gate {
            passes.resize(sources, false);
        }
    }
    system.find_passes();
    system
}

fn origin(word: &str) -> Origin {
    match word {
        "igp" => Origin::Igp,
        "egp" => Origin::Egp,
        "incomplete" => Origin::Incomplete,
        _ => panic!("an origin"),
    }
}

fn community(word: &str) -> (u16, u16) {
    let (system, value) = word.split_once(':').expect("a community");
    (
        system.parse().expect("a number"),
        value.parse().expect("a number"),
    )
}

/// NET via IP path NUMBERS.. origin ORIGIN [med N] [lp N] [igp N] [com A:B ..]
fn read_add<'a>(mut words: impl Iterator<Item = &'a str>) -> Op {
    let net = net(words.next().expect("a net"));
    assert_eq!(words.next(), Some("via"));
    let gw = address(words.next().expect("a gateway"));
    assert_eq!(words.next(), Some("path"));
    let path: Vec<u32> = words
        .by_ref()
        .take_while(|word| *word != "origin")
        .map(number)
        .collect();
    let origin = origin(words.next().expect("an origin"));
    let (mut med, mut lp, mut igp, mut coms) = (None, None, None, Vec::new());
    while let Some(label) = words.next() {
        match label {
            "med" => med = words.next().map(number),
            "lp" => lp = words.next().map(number),
            "igp" => igp = words.next().map(number),
            "com" => {
                for pair in words.by_ref().map(community) {
                    if !coms.contains(&pair) {
                        coms.push(pair);
                    }
                }
            }
            _ => panic!("an optional word"),
        }
    }
    let given = Given {
        gw,
        path: path.into(),
        origin,
        med,
        lp,
        igp,
        coms: coms.into(),
    };
    Op::Add(net, given)
}

/// A net, or an address as the net of its own.
fn covered(word: &str) -> Net {
    match word.split_once('/') {
        Some(_) => net(word),
        None => {
            let addr = address(word);
            let len = if addr.is_ipv4() { 32 } else { 128 };
            Net { addr, len }
        }
    }
}

/// One of a few conditions on the net's length and the path.
fn condition(words: &[&str]) -> Condition {
    let [name, sign, value] = *words else {
        panic!("a condition: {words:?}");
    };
    let value = number(value);
    match (name, sign) {
        ("net.len", ">") => Box::new(move |net, _| u32::from(net.len) > value),
        ("net.len", "<") => Box::new(move |net, _| u32::from(net.len) < value),
        ("bgp_path.len", "<") => Box::new(move |_, route| (route.attrs.path.len() as u32) < value),
        ("bgp_path.first", "=") => Box::new(move |_, route| route.attrs.path.first() == Some(&value)),
        _ => panic!("a condition: {words:?}"),
    }
}

/// show route [NET | for IP | for NET | in NET] [table NAME] [count] [where CONDITION && ..]
fn read_show(names: &Names, actor: usize, words: &[&str]) -> Line {
    let ["route", rest @ ..] = words else {
        panic!("a query: {words:?}");
    };
    let (pick, mut rest) = match rest {
        ["for", word, rest @ ..] => (Pick::For(covered(word)), rest),
        ["in", word, rest @ ..] => (Pick::Within(net(word)), rest),
        [word, rest @ ..] if word.contains('/') => (Pick::Exact(net(word)), rest),
        _ => (Pick::All, rest),
    };
    let is_v6 = match pick {
        Pick::All => false,
        Pick::Exact(net) | Pick::For(net) | Pick::Within(net) => net.addr.is_ipv6(),
    };
    let mut query = Query {
        table: usize::from(is_v6),
        pick,
        conditions: Vec::new(),
        count: false,
    };
    while let [option, behind @ ..] = rest {
        rest = match (*option, behind) {
            ("table", [name, behind @ ..]) => {
                query.table = names.tables[*name];
                behind
            }
            ("count", behind) => {
                query.count = true;
                behind
            }
            ("where", condition_words) => {
                query.conditions = condition_words.split(|word| *word == "&&").map(condition).collect();
                &[]
            }
            _ => panic!("a query: {words:?}"),
        };
    }
    Line::Show { actor, query }
}

/// What stands behind an actor's name.
fn read_command(names: &Names, actor: &str, place: usize, rest: &str) -> Line {
    let mut words = rest.split_whitespace();
    let of = |name: &str, op| Line::Apply {
        protocol: names.protocols[name],
        op,
    };
    let command = words.next().expect("a command");
    if command == "add" {
        return of(actor, read_add(words));
    }
    let words: Vec<&str> = words.collect();
    match (command, words.as_slice()) {
        ("open", [id]) => of(actor, Op::Open(router_id(id))),
        ("close", []) => of(actor, Op::Close),
        ("del", [prefix]) => of(actor, Op::Del(net(prefix))),
        ("disable", [name]) => of(name, Op::Disable),
        ("enable", [name]) => of(name, Op::Enable),
        ("reload", [name]) => of(name, Op::Reload),
        ("reload", ["in", name]) => of(name, Op::ReloadIn),
        ("reload", ["out", name]) => of(name, Op::ReloadOut),
        ("show", words) => read_show(names, place, words),
        _ => panic!("a command: {command}"),
    }
}

/// sync | !take CHANNEL NUMBER | !push CHANNEL NUMBER
fn read_schedule(names: &Names, first: &str, rest: &str) -> Line {
    let words: Vec<&str> = rest.split_whitespace().collect();
    match (first, words.as_slice()) {
        ("sync", []) => Line::Sync,
        ("!take", [name, count]) => Line::Take {
            channel: names.channels[*name],
            count: number(count).into(),
        },
        ("!push", [name, count]) => Line::Push {
            channel: names.channels[*name],
            count: number(count).into(),
        },
        _ => panic!("a line: {first}"),
    }
}

fn names_of(system: &System) -> Names {
    let protocols = system.protocols.iter().map(|protocol| &protocol.name);
    let channels = system.channels.iter().map(|channel| &channel.name);
    let tables = system.tables.iter().map(|table| &table.name);
    Names {
        protocols: protocols.cloned().zip(0..).collect(),
        channels: channels.cloned().zip(0..).collect(),
        tables: tables.cloned().zip(0..).collect(),
    }
}

fn read_script(text: &str, names: &Names) -> Script {
    let mut script = Script::default();
    let mut actors: HashMap<&str, usize> = HashMap::new();
    for line in text.lines() {
        let line = line.trim_start_matches([' ', '\t']);
        if line.is_empty() || line.starts_with('#') {
            continue;
        }
        let (first, rest) = line.split_once([' ', '\t']).unwrap_or((line, ""));
        script.lines.push(match first.strip_prefix('@') {
            Some(actor) => {
                let place = *actors.entry(actor).or_insert_with(|| {
                    script.actors.push(actor.to_string());
                    script.actors.len() - 1
                });
                read_command(names, actor, place, rest)
            }
            None => read_schedule(names, first, rest),
        });
    }
    script
}

impl Display for Net {
    fn fmt(&self, f: &mut Formatter) -> fmt::Result {
        write!(f, "{}/{}", self.addr, self.len)
    }
}

impl Display for Dest {
    fn fmt(&self, f: &mut Formatter) -> fmt::Result {
        f.write_str(match self {
            Dest::Unicast => "unicast",
            Dest::Blackhole => "blackhole",
            Dest::Unreachable => "unreachable",
            Dest::Prohibit => "prohibit",
        })
    }
}

impl Display for Origin {
    fn fmt(&self, f: &mut Formatter) -> fmt::Result {
        f.write_str(match self {
            Origin::Igp => "igp",
            Origin::Egp => "egp",
            Origin::Incomplete => "incomplete",
        })
    }
}

impl Display for Mode {
    fn fmt(&self, f: &mut Formatter) -> fmt::Result {
        f.write_str(match self {
            Mode::Idle => "idle",
            Mode::Up => "up",
            Mode::Disabled => "disabled",
        })
    }
}

fn write_optional(f: &mut Formatter, label: &str, value: Option<impl Display>) -> fmt::Result {
    match value {
        Some(value) => write!(f, " {label} {value}"),
        None => Ok(()),
    }
}

fn write_path(f: &mut Formatter, path: &[u32]) -> fmt::Result {
    f.write_str(" path")?;
    path.iter().try_for_each(|number| write!(f, " {number}"))
}

fn write_communities(f: &mut Formatter, coms: &[(u16, u16)]) -> fmt::Result {
    if !coms.is_empty() {
        f.write_str(" com")?;
    }
    coms.iter()
        .try_for_each(|(system, value)| write!(f, " {system}:{value}"))
}

impl Display for Attrs {
    fn fmt(&self, f: &mut Formatter) -> fmt::Result {
        let kind = match self.kind {
            Kind::Static => "static",
            Kind::Bgp => "bgp",
        };
        write!(f, "pref {} {kind} {}", self.pref, self.dest)?;
        write_optional(f, "gw", self.gw)?;
        write_optional(f, "from", self.sender)?;
        if self.kind == Kind::Bgp {
            let peer = if self.ebgp { "ebgp" } else { "ibgp" };
            write!(f, " id {} {peer}", Ipv4Addr::from(self.peer_id))?;
        }
        if !self.path.is_empty() {
            write_path(f, &self.path)?;
        }
        write_optional(f, "origin", self.origin)?;
        write_optional(f, "nh", self.next_hop)?;
        write_optional(f, "med", self.med)?;
        write_optional(f, "lp", self.lp)?;
        write_optional(f, "igp", self.igp)?;
        write_communities(f, &self.coms)
    }
}

impl Display for Given {
    fn fmt(&self, f: &mut Formatter) -> fmt::Result {
        write!(f, "via {}", self.gw)?;
        write_path(f, &self.path)?;
        write!(f, " origin {}", self.origin)?;
        write_optional(f, "med", self.med)?;
        write_optional(f, "lp", self.lp)?;
        write_optional(f, "igp", self.igp)?;
        write_communities(f, &self.coms)
    }
}

impl Display for Op {
    fn fmt(&self, f: &mut Formatter) -> fmt::Result {
        match self {
            Op::Start => f.write_str("start"),
            Op::Open(id) => write!(f, "open {}", Ipv4Addr::from(*id)),
            Op::Close => f.write_str("close"),
            Op::Add(net, given) => write!(f, "add {net} {given}"),
            Op::Del(net) => write!(f, "del {net}"),
            Op::Disable => f.write_str("disable"),
            Op::Enable => f.write_str("enable"),
            Op::Reload => f.write_str("reload"),
            Op::ReloadIn => f.write_str("reload in"),
            Op::ReloadOut => f.write_str("reload out"),
        }
    }
}

/// A value that is sent, with its source where it goes through a pipe.
fn write_value(
    out: &mut impl Write,
    system: &System,
    is_pipe: bool,
    key: &Key,
    value: Option<&Attrs>,
) -> io::Result<()> {
    write!(out, "{} ", key.0)?;
    if is_pipe {
        write!(out, "{} ", system.protocols[key.1].name)?;
    }
    match value {
        Some(attrs) => writeln!(out, "{attrs}"),
        None => writeln!(out, "-"),
    }
}

fn write_item(out: &mut impl Write, system: &System, is_pipe: bool, item: &Item) -> io::Result<()> {
    match item {
        Item::Up(position) => writeln!(out, "\tup {position}"),
        Item::Down => writeln!(out, "\tdown"),
        Item::Reload => writeln!(out, "\treload"),
        Item::Sent {
            again,
            position,
            key,
            value,
        } => {
            let again = if *again { "again " } else { "" };
            write!(out, "\t{again}{position} ")?;
            write_value(out, system, is_pipe, key, value.as_deref())
        }
    }
}

/// Adds a row of a reply, behind a tab.
fn write_row(out: &mut String, net: &Net, route: &Route, star: &str, name: &str) -> fmt::Result {
    let attrs = &route.attrs;
    write!(
        out,
        "\t{net} {} [{name}]{star} ({})",
        attrs.dest, attrs.pref
    )?;
    if attrs.kind == Kind::Bgp {
        out.push_str(" [");
        if let Some(last) = attrs.path.last() {
            write!(out, "AS{last}")?;
        }
        out.push_str(match attrs.origin {
            Some(Origin::Igp) => "i]",
            Some(Origin::Egp) => "e]",
            _ => "?]",
        });
    }
    out.push('\n');
    match attrs.gw {
        Some(gw) => writeln!(out, "\t\tvia {gw}"),
        None => Ok(()),
    }
}

fn passes(query: &Query, net: &Net, route: &Route) -> bool {
    query.conditions.iter().all(|condition| condition(net, route))
}

fn rows_text(system: &System, query: &Query) -> String {
    let read = &system.tables[query.table];
    let mut text = format!("\tTable {}:\n", read.name);
    read.each(&query.pick, |net, routes| {
        for (place, route) in routes.iter().enumerate() {
            if passes(query, net, route) {
                let star = if place == 0 { " *" } else { "" };
                let name = &system.protocols[route.source.number].name;
                write_row(&mut text, net, route, star, name).expect("a string takes all");
            }
        }
    });
    text
}

fn count_text(system: &System, query: &Query) -> String {
    let read = &system.tables[query.table];
    let (mut shown, mut nets) = (0, 0);
    read.each(&query.pick, |net, routes| {
        let kept = routes.iter().filter(|route| passes(query, net, route)).count();
        shown += kept;
        nets += usize::from(kept > 0);
    });
    let (total, name) = (read.routes, &read.name);
    format!("\t{shown} of {total} routes for {nets} networks in table {name}\n")
}

fn reply(system: &System, actor: usize, query: &Query) -> Reply {
    let text = if query.count { count_text(system, query) } else { rows_text(system, query) };
    Reply {
        actor,
        table: query.table,
        position: system.tables[query.table].head(),
        text,
    }
}

fn write_events(out: &mut impl Write, system: &System) -> io::Result<()> {
    for protocol in &system.protocols {
        writeln!(out, "protocol {}", protocol.name)?;
        for op in &protocol.ops {
            writeln!(out, "\t{op}")?;
        }
    }
    for table in &system.tables {
        writeln!(
            out,
            "journal {} {} {}",
            table.name,
            table.begun,
            table.head()
        )?;
        for (position, entry) in (table.begun + 1..).zip(&table.entries) {
            let name = &system.protocols[entry.source.number].name;
            write!(out, "\t{position} {} {name} ", entry.net)?;
            match &entry.new {
                Some(attrs) => writeln!(out, "{attrs}")?,
                None => writeln!(out, "-")?,
            }
        }
    }
    for channel in &system.channels {
        writeln!(out, "channel {}", channel.name)?;
        for item in &channel.log {
            write_item(out, system, channel.is_pipe(), item)?;
        }
    }
    Ok(())
}

fn write_replies(
    out: &mut impl Write,
    system: &System,
    actors: &[String],
    replies: &mut Vec<Reply>,
) -> io::Result<()> {
    replies.sort_by_key(|reply| reply.actor);
    for reply in replies.drain(..) {
        let (actor, table) = (&actors[reply.actor], &system.tables[reply.table].name);
        writeln!(out, "reply {actor} {table} {}", reply.position)?;
        out.write_all(reply.text.as_bytes())?;
    }
    Ok(())
}

fn write_state(out: &mut impl Write, system: &System) -> io::Result<()> {
    writeln!(out, "state")?;
    for table in &system.tables {
        let nets = table.nets.len();
        writeln!(out, "\ttable {} {nets} {}", table.name, table.routes)?;
        for (net, routes) in &table.nets {
            for route in routes {
                let name = &system.protocols[route.source.number].name;
                writeln!(out, "\t\t{net} {name} {}", route.attrs)?;
            }
        }
    }
    for protocol in &system.protocols {
        let name = &protocol.name;
        match &protocol.body {
            Body::Source { importer, .. } => {
                let (mode, accepted) = (importer.mode, importer.accepted.len());
                writeln!(out, "\tprotocol {name} {mode} {accepted}")?;
            }
            Body::Pipe(true) => writeln!(out, "\tprotocol {name} up")?,
            Body::Pipe(false) => writeln!(out, "\tprotocol {name} down")?,
        }
    }
    for channel in &system.channels {
        if !channel.up {
            writeln!(out, "\texport {} down", channel.name)?;
            continue;
        }
        writeln!(out, "\texport {} {}", channel.name, channel.sent.len())?;
        for (key, attrs) in &channel.sent {
            write!(out, "\t\t")?;
            write_value(out, system, channel.is_pipe(), key, Some(attrs))?;
        }
    }
    Ok(())
}

fn play(out: &mut impl Write, system: &mut System, script: Script) -> io::Result<()> {
    let mut lines = script.lines.into_iter();
    let mut replies = Vec::new();
    system.start();
    for phase in 1.. {
        let mut goes_on = false;
        for line in lines.by_ref() {
            match line {
                Line::Sync => {
                    goes_on = true;
                    break;
                }
                Line::Take { channel, count } => system.take(channel, count),
                Line::Push { channel, count } => system.push(channel, count),
                Line::Apply { protocol, op } => system.apply(protocol, op),
                Line::Show { actor, query } => replies.push(reply(system, actor, &query)),
            }
        }
        system.sync();
        writeln!(out, "phase {phase}")?;
        write_events(out, system)?;
        write_replies(out, system, &script.actors, &mut replies)?;
        write_state(out, system)?;
        system.end_phase();
        if !goes_on {
            break;
        }
    }
    writeln!(out, "end")
}

fn main() -> io::Result<()> {
    let words: Vec<String> = env::args().skip(1).collect();
    let words: Vec<&str> = words.iter().map(String::as_str).collect();
    let (conf, script, cells) = match words.as_slice() {
        ["play", conf, script] => (conf, script, 256),
        ["play", conf, script, "--journal", cells] => (conf, script, number(cells).into()),
        _ => panic!("play CONF SCRIPT [--journal N]"),
    };
    let mut system = read_config(&fs::read_to_string(conf)?, cells);
    let script = read_script(&fs::read_to_string(script)?, &names_of(&system));
    let mut out = BufWriter::new(io::stdout().lock());
    play(&mut out, &mut system, script)?;
    out.flush()
}
