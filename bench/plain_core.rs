//! Routes, tables, imports and exporters of `plain.rs`, and the machine that plays lines over them.

use std::cmp::Ordering;
use std::collections::{BTreeMap, BTreeSet, HashMap, VecDeque};
use std::mem;
use std::net::IpAddr;
use std::rc::Rc;

const NO_EXPORT: (u16, u16) = (65535, 65281);
const NO_ADVERTISE: (u16, u16) = (65535, 65282);
const NO_EXPORT_SUBCONFED: (u16, u16) = (65535, 65283);

/// A net; IPv4 first, then by address and length.
#[derive(Clone, Copy, PartialEq, Eq, PartialOrd, Ord, Hash)]
pub struct Net {
    pub addr: IpAddr,
    pub len: u8,
}

#[derive(Clone, Copy, PartialEq, Eq, PartialOrd, Ord)]
pub enum Kind {
    Static,
    Bgp,
}

#[derive(Clone, Copy, PartialEq, Eq)]
pub enum Dest {
    Unicast,
    Blackhole,
    Unreachable,
    Prohibit,
}

#[derive(Clone, Copy, PartialEq, Eq, PartialOrd, Ord)]
pub enum Origin {
    Igp,
    Egp,
    Incomplete,
}

#[derive(Clone, PartialEq, Eq)]
pub struct Attrs {
    pub pref: u32,
    pub kind: Kind,
    pub dest: Dest,
    pub gw: Option<IpAddr>,
    pub sender: Option<IpAddr>,
    pub peer_id: u32,
    pub ebgp: bool,
    pub path: Rc<[u32]>,
    pub origin: Option<Origin>,
    pub next_hop: Option<IpAddr>,
    pub med: Option<u32>,
    pub lp: Option<u32>,
    pub igp: Option<u32>,
    pub coms: Rc<[(u16, u16)]>,
}

/// A protocol's number, and what it has for a missing MED and local preference.
#[derive(Clone, Copy)]
pub struct Source {
    pub number: usize,
    pub med: u32,
    pub lp: u32,
}

#[derive(Clone)]
pub struct Route {
    pub source: Source,
    pub attrs: Rc<Attrs>,
}

/// What an `add` line says of its net.
pub struct Given {
    pub gw: IpAddr,
    pub path: Rc<[u32]>,
    pub origin: Origin,
    pub med: Option<u32>,
    pub lp: Option<u32>,
    pub igp: Option<u32>,
    pub coms: Rc<[(u16, u16)]>,
}

pub enum Op {
    Start,
    Open(u32),
    Close,
    Add(Net, Given),
    Del(Net),
    Disable,
    Enable,
    Reload,
    ReloadIn,
    ReloadOut,
}

pub enum Line {
    Sync,
    Take { channel: usize, count: u64 },
    Push { channel: usize, count: u64 },
    Apply { protocol: usize, op: Op },
    Show { actor: usize, query: Query },
}

/// Which nets a query asks for.
pub enum Pick {
    All,
    Exact(Net),
    For(Net),
    Within(Net),
}

pub type Condition = Box<dyn Fn(&Net, &Route) -> bool>;

/// A query, which shows the routes that pass all conditions.
pub struct Query {
    pub table: usize,
    pub pick: Pick,
    pub conditions: Vec<Condition>,
    pub count: bool,
}

pub struct Entry {
    pub net: Net,
    pub source: Source,
    pub new: Option<Rc<Attrs>>,
    best: Option<Route>,
}

/// The routes of each net, the best first, and the entries of this phase.
pub struct Table {
    pub name: String,
    pub nets: BTreeMap<Net, Vec<Route>>,
    pub routes: usize,
    pub begun: u64,
    pub entries: Vec<Entry>,
}

#[derive(Clone, Copy, PartialEq, Eq)]
pub enum Mode {
    Idle,
    Up,
    Disabled,
}

/// What a bgp protocol gives its routes.
pub struct Session {
    pub neighbor: IpAddr,
    pub ebgp: bool,
    pub router_id: u32,
}

pub enum Feeder {
    Static(BTreeMap<Net, Rc<Attrs>>),
    Bgp(Session),
}

/// The import side of a protocol.
pub struct Importer {
    pub feeder: Feeder,
    pub import: bool,
    pub pref: u32,
    pub mode: Mode,
    pub received: BTreeMap<Net, Rc<Attrs>>,
    pub accepted: BTreeMap<Net, Rc<Attrs>>,
}

enum Then {
    Stay,
    Up,
    Down,
    Refresh,
}

struct Mark {
    position: u64,
    candidate: Option<Route>,
    due: bool,
}

/// What a channel sends values of: a net, and the source where it is a direction of a pipe, else 0.
pub type Key = (Net, usize);

/// Marked keys in the order of their first marking.
#[derive(Default)]
struct Marks {
    order: VecDeque<Key>,
    marks: HashMap<Key, Mark>,
}

pub enum Item {
    Up(u64),
    Down,
    Reload,
    Sent {
        again: bool,
        position: u64,
        key: Key,
        value: Option<Rc<Attrs>>,
    },
}

/// What a channel lets out.
pub enum Gate {
    /// The channel of a bgp protocol sends each net's best route.
    Bgp { ebgp: bool, communities: bool },
    /// A direction of a pipe passes the routes of these sources to a table.
    Pipe { target: usize, passes: Vec<bool> },
}

/// A channel, of a bgp protocol or a direction of a pipe.
pub struct Channel {
    pub name: String,
    pub owner: usize,
    pub table: usize,
    pub gate: Gate,
    pub export: bool,
    pub up: bool,
    position: u64,
    floor: u64,
    marks: Marks,
    pub sent: BTreeMap<Key, Rc<Attrs>>,
    pub log: Vec<Item>,
}

pub enum Body {
    Source { table: usize, importer: Importer },
    /// Whether it is up.
    Pipe(bool),
}

pub struct Protocol {
    pub name: String,
    pub source: Source,
    pub body: Body,
    pub ops: Vec<Op>,
}

pub struct System {
    pub cells: u64,
    pub tables: Vec<Table>,
    pub protocols: Vec<Protocol>,
    pub channels: Vec<Channel>,
}

/// Less where `a` is preferred to `b`, a route of the same net from another source.
fn selection(a: &Route, b: &Route) -> Ordering {
    let (x, y) = (&a.attrs, &b.attrs);
    y.pref
        .cmp(&x.pref)
        .then_with(|| x.kind.cmp(&y.kind))
        .then_with(|| match x.kind {
            Kind::Static => Ordering::Equal,
            Kind::Bgp => bgp_selection(a, b),
        })
        .then_with(|| a.source.number.cmp(&b.source.number))
}

fn bgp_selection(a: &Route, b: &Route) -> Ordering {
    let (x, y) = (&a.attrs, &b.attrs);
    let lp = |route: &Route| route.attrs.lp.unwrap_or(route.source.lp);
    let med = |route: &Route| route.attrs.med.unwrap_or(route.source.med);
    let origin = |attrs: &Attrs| attrs.origin.unwrap_or(Origin::Incomplete);
    lp(b)
        .cmp(&lp(a))
        .then_with(|| x.path.len().cmp(&y.path.len()))
        .then_with(|| origin(x).cmp(&origin(y)))
        .then_with(|| med(a).cmp(&med(b)))
        .then_with(|| y.ebgp.cmp(&x.ebgp))
        .then_with(|| x.igp.unwrap_or(0).cmp(&y.igp.unwrap_or(0)))
        .then_with(|| x.peer_id.cmp(&y.peer_id))
        .then_with(|| x.sender.cmp(&y.sender))
}

/// The bits of an address from the left, of 32 or 128.
fn bits(addr: IpAddr) -> u128 {
    match addr {
        IpAddr::V4(addr) => u128::from(u32::from(addr)) << 96,
        IpAddr::V6(addr) => addr.into(),
    }
}

impl Net {
    /// The net of this length that covers it.
    fn cut(self, len: u8) -> Net {
        let kept = bits(self.addr) & u128::MAX.checked_shl(128 - u32::from(len)).unwrap_or(0);
        let addr = match self.addr {
            IpAddr::V4(_) => IpAddr::V4(((kept >> 96) as u32).into()),
            IpAddr::V6(_) => IpAddr::V6(kept.into()),
        };
        Net { addr, len }
    }

    fn covers(self, other: Net) -> bool {
        self.addr.is_ipv4() == other.addr.is_ipv4() && self.len <= other.len && other.cut(self.len) == self
    }

    /// How many first bits both have.
    fn common(self, other: Net) -> u8 {
        let same = (bits(self.addr) ^ bits(other.addr)).leading_zeros() as u8;
        same.min(self.len).min(other.len)
    }
}

/// The nets that cover one, from the longest on.
fn longest(nets: &BTreeMap<Net, Vec<Route>>, asked: Net) -> Option<(&Net, &Vec<Route>)> {
    let mut asked = asked;
    loop {
        let found = nets.range(..=asked).next_back()?;
        if found.0.covers(asked) {
            return Some(found);
        }
        if found.0.addr.is_ipv4() != asked.addr.is_ipv4() {
            return None;
        }
        asked = asked.cut(found.0.common(asked));
    }
}

impl Table {
    pub fn new(name: &str) -> Table {
        Table {
            name: name.to_string(),
            nets: BTreeMap::new(),
            routes: 0,
            begun: 0,
            entries: Vec::new(),
        }
    }

    /// Calls `show` for each net that is asked for.
    pub fn each(&self, pick: &Pick, mut show: impl FnMut(&Net, &[Route])) {
        match *pick {
            Pick::All => self.nets.iter().for_each(|(net, routes)| show(net, routes)),
            Pick::Exact(asked) => self.nets.get_key_value(&asked).into_iter().for_each(|(net, routes)| show(net, routes)),
            Pick::For(asked) => longest(&self.nets, asked).into_iter().for_each(|(net, routes)| show(net, routes)),
            Pick::Within(asked) => {
                let within = self.nets.range(asked..).take_while(|(net, _)| asked.covers(**net));
                within.for_each(|(net, routes)| show(net, routes));
            }
        }
    }

    pub fn head(&self) -> u64 {
        self.begun + self.entries.len() as u64
    }

    fn entry(&self, position: u64) -> &Entry {
        &self.entries[(position - self.begun - 1) as usize]
    }

    fn change(&mut self, net: Net, source: Source, new: Option<Rc<Attrs>>) {
        let routes = self.nets.entry(net).or_default();
        self.routes -= routes.len();
        routes.retain(|route| route.source.number != source.number);
        if let Some(attrs) = new.clone() {
            let route = Route { source, attrs };
            let place = routes.partition_point(|kept| selection(kept, &route).is_lt());
            routes.insert(place, route);
        }
        self.routes += routes.len();
        let best = routes.first().cloned();
        if best.is_none() {
            self.nets.remove(&net);
        }
        self.entries.push(Entry {
            net,
            source,
            new,
            best,
        });
    }
}

type Changes = Vec<(Net, Option<Rc<Attrs>>)>;

/// The nets that differ, with what they are now.
fn difference(old: &BTreeMap<Net, Rc<Attrs>>, new: &BTreeMap<Net, Rc<Attrs>>) -> Changes {
    let nets: BTreeSet<Net> = old.keys().chain(new.keys()).copied().collect();
    nets.into_iter()
        .filter(|net| old.get(net) != new.get(net))
        .map(|net| (net, new.get(&net).cloned()))
        .collect()
}

impl Importer {
    pub fn new(feeder: Feeder, import: bool, pref: u32) -> Importer {
        Importer {
            feeder,
            import,
            pref,
            mode: Mode::Idle,
            received: BTreeMap::new(),
            accepted: BTreeMap::new(),
        }
    }

    fn is_bgp(&self) -> bool {
        matches!(self.feeder, Feeder::Bgp(_))
    }

    fn apply(&mut self, op: &Op, default_lp: u32) -> (Changes, Then) {
        let none = (Changes::new(), Then::Stay);
        match (op, self.mode) {
            (Op::Start, Mode::Idle) => (self.start(), Then::Stay),
            (Op::Open(id), Mode::Idle) => self.open(*id),
            (Op::Add(net, given), Mode::Up) => (self.add(*net, given, default_lp), Then::Stay),
            (Op::Del(net), Mode::Up) => (self.del(*net), Then::Stay),
            (Op::Close, Mode::Up) => self.down(Mode::Idle),
            (Op::Disable, Mode::Idle | Mode::Up) => self.down(Mode::Disabled),
            (Op::Enable, Mode::Disabled) if self.is_bgp() => {
                self.mode = Mode::Idle;
                none
            }
            (Op::Enable, Mode::Disabled) => {
                self.mode = Mode::Up;
                (self.rebuild(), Then::Stay)
            }
            (Op::ReloadIn, Mode::Up) => (self.rebuild(), Then::Stay),
            (Op::ReloadOut, Mode::Up) => (Changes::new(), self.refresh()),
            (Op::Reload, Mode::Up) => (self.rebuild(), self.refresh()),
            _ => none,
        }
    }

    fn start(&mut self) -> Changes {
        if let Feeder::Static(routes) = &self.feeder {
            self.received = routes.clone();
        }
        self.mode = Mode::Up;
        self.rebuild()
    }

    fn open(&mut self, id: u32) -> (Changes, Then) {
        if let Feeder::Bgp(session) = &mut self.feeder {
            session.router_id = id;
        }
        self.mode = Mode::Up;
        (Changes::new(), Then::Up)
    }

    fn refresh(&self) -> Then {
        if self.is_bgp() {
            Then::Refresh
        } else {
            Then::Stay
        }
    }

    fn down(&mut self, mode: Mode) -> (Changes, Then) {
        let was_up = self.mode == Mode::Up && self.is_bgp();
        self.mode = mode;
        if self.is_bgp() {
            self.received.clear();
        }
        let old = mem::take(&mut self.accepted);
        let changes = old.into_keys().map(|net| (net, None)).collect();
        (changes, if was_up { Then::Down } else { Then::Stay })
    }

    fn rebuild(&mut self) -> Changes {
        let new = if self.import {
            self.received.clone()
        } else {
            BTreeMap::new()
        };
        let old = mem::replace(&mut self.accepted, new);
        difference(&old, &self.accepted)
    }

    fn add(&mut self, net: Net, given: &Given, default_lp: u32) -> Changes {
        let Feeder::Bgp(session) = &self.feeder else {
            panic!("a bgp protocol");
        };
        let attrs = Rc::new(session.attrs(given, self.pref, default_lp));
        self.received.insert(net, attrs.clone());
        if !self.import || self.accepted.get(&net) == Some(&attrs) {
            return Changes::new();
        }
        self.accepted.insert(net, attrs.clone());
        vec![(net, Some(attrs))]
    }

    fn del(&mut self, net: Net) -> Changes {
        self.received.remove(&net);
        match self.accepted.remove(&net) {
            Some(_) => vec![(net, None)],
            None => Changes::new(),
        }
    }
}

impl Session {
    fn attrs(&self, given: &Given, pref: u32, default_lp: u32) -> Attrs {
        let lp = given.lp.filter(|_| !self.ebgp).unwrap_or(default_lp);
        Attrs {
            pref,
            kind: Kind::Bgp,
            dest: Dest::Unicast,
            gw: Some(given.gw),
            sender: Some(self.neighbor),
            peer_id: self.router_id,
            ebgp: self.ebgp,
            path: given.path.clone(),
            origin: Some(given.origin),
            next_hop: Some(given.gw),
            med: given.med,
            lp: Some(lp),
            igp: given.igp,
            coms: given.coms.clone(),
        }
    }
}

impl Marks {
    /// A key that is marked already keeps its place, and stays due where it was.
    fn put(&mut self, key: Key, position: u64, candidate: Option<Route>, due: bool) {
        let mark = Mark {
            position,
            candidate,
            due,
        };
        if let Some(kept) = self.marks.get_mut(&key) {
            let due = kept.due || due;
            *kept = Mark { due, ..mark };
        } else {
            self.order.push_back(key);
            self.marks.insert(key, mark);
        }
    }

    fn take_first(&mut self) -> Option<(Key, Mark)> {
        let key = self.order.pop_front()?;
        let mark = self.marks.remove(&key)?;
        Some((key, mark))
    }

    fn clear(&mut self) {
        self.order.clear();
        self.marks.clear();
    }
}

impl Channel {
    pub fn new(name: String, owner: usize, table: usize, gate: Gate, export: bool) -> Channel {
        Channel {
            name,
            owner,
            table,
            gate,
            export,
            up: false,
            position: 0,
            floor: 0,
            marks: Marks::default(),
            sent: BTreeMap::new(),
            log: Vec::new(),
        }
    }

    pub fn is_pipe(&self) -> bool {
        matches!(self.gate, Gate::Pipe { .. })
    }

    fn keeps(&self, route: &Route) -> bool {
        let attrs = &route.attrs;
        let Gate::Bgp { ebgp, communities } = self.gate else {
            return false;
        };
        let has = |community| communities && attrs.coms.contains(&community);
        route.source.number == self.owner
            || attrs.kind == Kind::Bgp && !attrs.ebgp && !ebgp
            || has(NO_ADVERTISE)
            || ebgp && (has(NO_EXPORT) || has(NO_EXPORT_SUBCONFED))
    }

    fn value(&self, candidate: Option<&Route>) -> Option<Rc<Attrs>> {
        candidate
            .filter(|route| self.export && !self.keeps(route))
            .map(|route| route.attrs.clone())
    }

    /// The candidates of a net at the table's head, by their keys.
    fn candidates(&self, net: Net, routes: &[Route]) -> Vec<(Key, Route)> {
        match &self.gate {
            Gate::Bgp { .. } => vec![((net, 0), routes[0].clone())],
            Gate::Pipe { passes, .. } => routes
                .iter()
                .filter(|route| passes[route.source.number])
                .map(|route| ((net, route.source.number), route.clone()))
                .collect(),
        }
    }

    fn feed(&mut self, table: &Table, due: bool) {
        let mut found: BTreeMap<Key, Option<Route>> = BTreeMap::new();
        found.extend(self.marks.order.iter().map(|key| (*key, None)));
        found.extend(self.sent.keys().map(|key| (*key, None)));
        for (net, routes) in &table.nets {
            let candidates = self.candidates(*net, routes);
            found.extend(candidates.into_iter().map(|(key, route)| (key, Some(route))));
        }
        self.floor = table.head();
        for (key, candidate) in found {
            self.marks.put(key, self.floor, candidate, due);
        }
    }

    fn begin(&mut self, table: &Table) {
        self.up = true;
        self.position = table.head();
        self.log.push(Item::Up(self.position));
        self.feed(table, false);
    }

    fn refresh(&mut self, table: &Table) {
        self.log.push(Item::Reload);
        self.feed(table, true);
    }

    fn end(&mut self) {
        self.up = false;
        self.log.push(Item::Down);
        self.marks.clear();
        self.sent.clear();
    }

    /// False where the cursor stands at the head.
    fn take(&mut self, table: &Table) -> bool {
        if self.position == table.head() {
            return false;
        }
        self.position += 1;
        if self.position <= self.floor {
            return true;
        }
        let entry = table.entry(self.position);
        match &self.gate {
            Gate::Bgp { .. } => {
                let best = entry.best.clone();
                self.marks.put((entry.net, 0), self.position, best, false);
            }
            Gate::Pipe { passes, .. } if passes[entry.source.number] => {
                let source = entry.source;
                let new = entry.new.clone().map(|attrs| Route { source, attrs });
                let key = (entry.net, source.number);
                self.marks.put(key, self.position, new, false);
            }
            Gate::Pipe { .. } => {}
        }
        true
    }

    /// What a push sends, where anything is marked, and where it isn't quiet.
    fn push(&mut self) -> Option<Option<(Key, bool, Option<Rc<Attrs>>)>> {
        let (key, mark) = self.marks.take_first()?;
        let value = self.value(mark.candidate.as_ref());
        let again = value.as_ref() == self.sent.get(&key);
        if again && (!mark.due || value.is_none()) {
            return Some(None);
        }
        match &value {
            Some(attrs) => self.sent.insert(key, attrs.clone()),
            None => self.sent.remove(&key),
        };
        let position = mark.position;
        self.log.push(Item::Sent {
            again,
            position,
            key,
            value: value.clone(),
        });
        Some(Some((key, again, value)))
    }

    fn is_settled(&self, table: &Table) -> bool {
        !self.up || self.position == table.head() && self.marks.order.is_empty()
    }
}

impl System {
    /// Which sources enter a table by a direction that comes along these ways: level by level.
    pub fn find_passes(&mut self) {
        let sources = self.protocols.len();
        for number in 0..sources {
            let Body::Source { table, .. } = self.protocols[number].body else {
                continue;
            };
            let mut reached = vec![table];
            let mut next = 0;
            while next < reached.len() {
                let from = reached[next];
                next += 1;
                for channel in &mut self.channels {
                    if let Gate::Pipe { target, passes } = &mut channel.gate {
                        if channel.table == from && !reached.contains(target) {
                            reached.push(*target);
                            passes[number] = true;
                        }
                    }
                }
            }
        }
    }

    /// Pipes come up, and static protocols start.
    pub fn start(&mut self) {
        for channel in &mut self.channels {
            if channel.is_pipe() {
                channel.begin(&self.tables[channel.table]);
            }
        }
        for number in 0..self.protocols.len() {
            match &self.protocols[number].body {
                Body::Source { importer, .. } if !importer.is_bgp() => self.apply(number, Op::Start),
                _ => {}
            }
        }
    }

    fn change(&mut self, table: usize, net: Net, source: Source, new: Option<Rc<Attrs>>) {
        self.make_room(table);
        self.tables[table].change(net, source, new);
    }

    pub fn apply(&mut self, number: usize, op: Op) {
        let protocol = &mut self.protocols[number];
        let source = protocol.source;
        let (table, changes, then) = match &mut protocol.body {
            Body::Source { table, importer } => {
                let (changes, then) = importer.apply(&op, source.lp);
                (*table, changes, then)
            }
            Body::Pipe(up) => (0, Changes::new(), pipe_then(up, &op)),
        };
        protocol.ops.push(op);
        for (net, new) in changes {
            self.change(table, net, source, new);
        }
        for channel in 0..self.channels.len() {
            if self.channels[channel].owner == number {
                self.mark(channel, &then);
            }
        }
    }

    fn mark(&mut self, number: usize, then: &Then) {
        let channel = &mut self.channels[number];
        let table = &self.tables[channel.table];
        match then {
            Then::Stay => {}
            Then::Up => channel.begin(table),
            Then::Refresh => channel.refresh(table),
            Then::Down => self.end(number),
        }
    }

    fn end(&mut self, number: usize) {
        if let Gate::Pipe { target, .. } = self.channels[number].gate {
            let sent: Vec<Key> = self.channels[number].sent.keys().copied().collect();
            for (net, source) in sent {
                let source = self.protocols[source].source;
                self.change(target, net, source, None);
            }
        }
        self.channels[number].end();
    }

    /// Each cursor that lags by the whole journal takes one entry.
    fn make_room(&mut self, number: usize) {
        let table = &self.tables[number];
        for channel in &mut self.channels {
            let lags = channel.up && channel.table == number;
            if lags && table.head() - channel.position == self.cells {
                channel.take(table);
            }
        }
    }

    pub fn take(&mut self, channel: usize, count: u64) {
        let channel = &mut self.channels[channel];
        if channel.up {
            let table = &self.tables[channel.table];
            let _ = (0..count).all(|_| channel.take(table));
        }
    }

    /// False where nothing is marked.
    fn push_one(&mut self, number: usize) -> bool {
        match self.channels[number].push() {
            None => false,
            Some(None) => true,
            Some(Some((key, again, value))) => {
                if let (Gate::Pipe { target, .. }, false) = (&self.channels[number].gate, again) {
                    let source = self.protocols[key.1].source;
                    self.change(*target, key.0, source, value);
                }
                true
            }
        }
    }

    pub fn push(&mut self, channel: usize, count: u64) {
        if self.channels[channel].up {
            let _ = (0..count).all(|_| self.push_one(channel));
        }
    }

    fn is_settled(&self) -> bool {
        let settled = |channel: &Channel| channel.is_settled(&self.tables[channel.table]);
        self.channels.iter().all(settled)
    }

    /// Rounds until all channels that are up are settled.
    pub fn sync(&mut self) {
        while !self.is_settled() {
            for channel in 0..self.channels.len() {
                self.take(channel, u64::MAX);
                self.push(channel, u64::MAX);
            }
        }
    }

    /// Forgets what the report of a phase has shown.
    pub fn end_phase(&mut self) {
        for table in &mut self.tables {
            table.begun = table.head();
            table.entries.clear();
        }
        for protocol in &mut self.protocols {
            protocol.ops.clear();
        }
        for channel in &mut self.channels {
            channel.log.clear();
        }
    }
}

/// What an operation of a pipe means for its directions.
fn pipe_then(up: &mut bool, op: &Op) -> Then {
    match (op, *up) {
        (Op::Disable, true) => {
            *up = false;
            Then::Down
        }
        (Op::Enable, false) => {
            *up = true;
            Then::Up
        }
        (Op::Reload | Op::ReloadIn | Op::ReloadOut, true) => Then::Refresh,
        _ => Then::Stay,
    }
}
