//! The same conditions as those of filters.py, in plain Rust: `conditions COUNT ROUNDS`, `nets COUNT ROUNDS` or
//! `ranges COUNT ROUNDS`.

use std::env;

struct Attrs {
    path: Vec<u32>,
    med: Option<u32>,
    communities: Vec<(u16, u16)>,
    rest: [u32; 16],
}

struct Route {
    net: u32,
    length: u8,
    attrs: Attrs,
}

enum Verdict {
    Accept(Attrs),
    Reject,
}

type Condition = Box<dyn Fn(&Route) -> bool>;

fn condition(index: u32) -> Condition {
    let number = 1_000 + index;
    match index % 5 {
        0 => Box::new(move |route| u32::from(route.length) > 25 + index % 7),
        1 => Box::new(move |route| route.attrs.med == Some(number)),
        2 => Box::new(move |route| route.attrs.communities.contains(&(65010, number as u16))),
        3 => Box::new(move |route| route.attrs.path.len() as u32 > 20 + index % 50),
        _ => Box::new(move |route| route.attrs.path.first() == Some(&number)),
    }
}

fn in_nets(count: u32) -> Condition {
    let nets: Vec<(u32, u8)> = (0..count).map(|index| ((11 << 24) + (index << 8), 24)).collect();
    Box::new(move |route| nets.binary_search(&(route.net, route.length)).is_ok())
}

/// The item of the net of this length that covers the route's, where it takes the route's length.
fn takes(items: &[(u32, u8, u8, u8)], route: &Route, length: u8) -> bool {
    let front = u32::MAX.checked_shl(32 - u32::from(length)).unwrap_or(0);
    let net = (route.net & front, length);
    match items.binary_search_by_key(&net, |item| (item.0, item.1)) {
        Ok(found) => items[found].2 <= route.length && route.length <= items[found].3,
        Err(_) => false,
    }
}

fn in_ranges(count: u32) -> Condition {
    let step = ((1u64 << 32) / 100_000) as u32;
    let items: Vec<(u32, u8, u8, u8)> = (0..count).map(|index| ((index * step) & 0xFFFF_FF00, 24, 25, 32)).collect();
    Box::new(move |route| (0..=route.length).any(|length| takes(&items, route, length)))
}

fn copy(attrs: &Attrs) -> Attrs {
    Attrs {
        path: attrs.path.clone(),
        med: attrs.med,
        communities: attrs.communities.clone(),
        rest: attrs.rest,
    }
}

fn judge(conditions: &[Condition], route: &Route) -> Verdict {
    for condition in conditions {
        if condition(route) {
            return Verdict::Reject;
        }
    }
    Verdict::Accept(copy(&route.attrs))
}

fn route(index: u32) -> Route {
    Route {
        net: (10 << 24) + (index << 8),
        length: 24,
        attrs: Attrs {
            path: vec![65001, 65002, 65003, 65100 + index],
            med: Some(index),
            communities: vec![(65000, index as u16), (65001, 1)],
            rest: [index; 16],
        },
    }
}

fn main() {
    let words: Vec<String> = env::args().collect();
    let count: u32 = words[2].parse().unwrap();
    let rounds: u32 = words[3].parse().unwrap();
    let conditions: Vec<Condition> = match words[1].as_str() {
        "nets" => vec![in_nets(count)],
        "ranges" => vec![in_ranges(count)],
        _ => (0..count).map(condition).collect(),
    };
    let routes: Vec<Route> = (0..256).map(route).collect();
    let mut accepted: u64 = 0;
    for _ in 0..rounds {
        for route in &routes {
            if let Verdict::Accept(attrs) = judge(&conditions, route) {
                accepted += std::hint::black_box(attrs).path.len().min(1) as u64;
            }
        }
    }
    println!("{accepted}");
}
