#!/usr/bin/env python3
"""Times journals and shared tables, beside plain Rust (plain_journal.rs) and the plain table of today.

    bench/journal.py [COUNT] [take] [update] [race]

It builds a program over copies of the repository's crates, with what `rt check` kept in crates/table_shared_tests and
crates/jour_tests and below, and wants rustc and valgrind. Each figure is the work of COUNT entries (by
default 200,000), found as the difference between two runs: instructions as callgrind counts them, and nanoseconds of a
processor, by the shortest of forty runs and by those in the middle, in which all works take turns. Without a name it
measures all three.

take    an entry of 13 words is taken by `Cursor::next` and `advance`, in turns of a thousand, beside an unproved ring
        of atomic words; the last of its words is read. The bar is twice the ring. Then the same, and all its words are
        added up; also beside a queue under a lock.
update  a table of 100,000 nets has one of their routes changed (a BGP route with a path of four numbers), by
        `Table::update` over a journal of 64, 256 (a table's own) or 4,096 cells, whose only cursor skips all every fifty
        changes, beside the same change of the table that a core plays on. The bar is 1.5 times that.
race    two threads enter COUNT changes each into a table of 4,096 cells, and two cursors take all; what each read is
        compared with the history. Beside it a ring and a queue with a thread at each end. Seconds by the clock.
"""

import pathlib
import resource
import shutil
import statistics
import subprocess
import sys
import tempfile
import time

TOP = pathlib.Path(__file__).resolve().parent.parent
COUNT = 200_000
NETS = 100_000
RUNS = 40
UPDATES = ["update-64", "update-256", "update-4096"]

CRATES = "table_shared_tests jour_tests table_shared rec_words rib attrs bits_ip jour jour_rule keyed_lock outside_io atomic_table"

PROGRAM = """
//! What bench/journal.py measures: journals, shared tables, and the plain table beside them.
#![tactic(auto)]
ghost use Rattle.std.specs.Prelude.{◌≡◌, ◌<◌, ◌≤◌, ◌^◌, IfOk, option_copied};
ghost use Rattle.bits_ip.specs.declared.address.Family.TheVariants.{V4};
ghost use Rattle.table_shared_tests.specs.Changes.{IsOfSource};

use attrs::{Change, JEntry, Route};
use bits_ip::{Family, OutOfMemory};
use jour_rule::buf::Buf;
use rib::Rib;
use std::alloc::Global;
use std::env;
use std::process::ExitCode;
use std::sync::Wait;
use std::thread::Threads;
use jour_tests::{Bench as Journal, Reader};
use table_shared_tests::{Bench, Race, learnt_change, numbered_net};

/// The table that a core plays on: its rows, and the records of its changes.
#[derive(Drop)]
struct Plain {
    rib: Rib,
    entries: Vec<JEntry>,
    ghost family: { rib.family ≡ V4 },
}

impl Plain {
    fn append(&mut self, change: Change) -> Result<(), OutOfMemory>
        requires { IsOfSource 0 change }
    {
        self.rib.reserve(&change)?;
        let copy = copy_option(change.new.as_ref())?;
        let Change { net, num, new } = change;
        let _ = self.rib.change(Change {
            net,
            num,
            new: copy,
        });
        let best = self.rib.copy_best(&net)?;
        self.entries.push(JEntry {
            net,
            num,
            new,
            best,
        })?;
        Ok(())
    }
}

fn copy_option(route: Option<&Route>) -> Result<Option<Route>, OutOfMemory>
    ensures { IfOk result (λ copy. copy ≡ option_copied route.entry) }
{
    match route {
        Some(route) => Ok(Some(route.copy()?)),
        None => Ok(None),
    }
}

/// An entry of 13 words.
fn entry(number: u64) -> Buf {
    let mut words = Buf::new();
    words.push(13);
    for _ in 0..12u32 {
        if words.len() < 256 {
            words.push(number);
        }
    }
    words
}

fn sum_of(words: &[u64]) -> u64 {
    let mut sum = 0u64;
    for word in words {
        sum = sum.wrapping_add(*word);
    }
    sum
}

fn last_of(words: &[u64]) -> u64 {
    match words.last() {
        Some(word) => *word,
        None => 0,
    }
}

/// Takes the next entry, and reads all its words or the last.
fn take(cursor: &mut Reader, words: &mut Buf, all: bool) -> u64 {
    let Some(_) = cursor.next(words) else {
        return 0;
    };
    cursor.advance();
    if all {
        sum_of(words.words())
    } else {
        last_of(words.words())
    }
}

/// What a thousand entries add up to.
fn take_turn(cursor: &mut Option<Reader>, all: bool) -> u64 {
    let mut words = Buf::new();
    let mut sum = 0u64;
    if let Some(cursor) = cursor.as_mut() {
        for _ in 0..1000u32 {
            sum = sum.wrapping_add(take(cursor, &mut words, all));
        }
    }
    sum
}

/// Appends so many entries over 1,024 cells, and takes them in turns of a thousand. Answers what
/// the words that were read add up to.
fn append_and_take(alloc: Global, count: u32, cursors: u32, all: bool) -> Result<u64, OutOfMemory>
    requires { cursors ≤ 512 }
{
    let Some((mut journal, mut closed)) = Journal::open(alloc, 1024, cursors)? else {
        return Ok(0);
    };
    let mut cursor = journal.start_one(&mut closed);
    let mut sum = 0u64;
    for number in 0..count {
        if journal.put(entry(u64::from(number)).words()).is_err() {
            break;
        }
        if number % 1000 == 999 {
            sum = sum.wrapping_add(take_turn(&mut cursor, all));
        }
    }
    Ok(sum)
}

/// Which of 100,000 nets is changed next: all of them, in a scattered order.
fn place(number: u32) -> u32
    ensures { result < 2 ^ 24 }
{
    (u64::from(number) * 7919 % 100_000) as u32
}

fn make(alloc: Global, count: u32) -> Result<u64, OutOfMemory> {
    let mut done = 0u64;
    for number in 0..count {
        let Ok(net) = numbered_net(place(number)) else {
            break;
        };
        let change = learnt_change(alloc, &net, 0, number)?;
        if change.new.is_some() {
            done = done.wrapping_add(1);
        }
    }
    Ok(done)
}

fn change_plain(alloc: Global, count: u32) -> Result<u64, OutOfMemory> {
    let mut table = Plain {
        rib: Rib::make(alloc, Family::V4),
        entries: Vec::new(alloc),
    };
    let mut done = 0u64;
    for number in 0..count {
        let Ok(net) = numbered_net(place(number)) else {
            break;
        };
        let change = learnt_change(alloc, &net, 0, number)?;
        table.append(change)?;
        done = done.wrapping_add(1);
    }
    Ok(done)
}

fn update<R: Wait>(rt: &R, alloc: Global, cells: u32, count: u32) -> Result<u64, OutOfMemory>
    requires { (0 < cells) × (cells ≤ 4096) }
{
    let Some(mut bench) = Bench::open(alloc, cells, 0)? else {
        return Ok(0);
    };
    let mut done = 0u64;
    for number in 0..count {
        let Ok(net) = numbered_net(place(number)) else {
            break;
        };
        if bench.learn(rt, alloc, &net, number).is_ok() {
            done = done.wrapping_add(1);
        }
        if number % 50 == 49 {
            let _at = bench.skip()?;
        }
    }
    Ok(done)
}

fn run_race<R: Threads + Wait + Sync>(rt: &R, alloc: Global, count: u32) -> Result<u64, OutOfMemory> {
    let Some(race) = Race::open(alloc, 4096)? else {
        return Ok(0);
    };
    let Some(raced) = race.run(rt, alloc, count)? else {
        return Ok(0);
    };
    if raced.history.count == 2 * u64::from(count)
        && raced.left == raced.history
        && raced.right == raced.history
    {
        Ok(u64::from(count))
    } else {
        Ok(0)
    }
}

fn work<R: Threads + Wait + Sync>(
    rt: &R,
    alloc: Global,
    mode: &str,
    count: u32,
) -> Result<u64, OutOfMemory> {
    if mode == "append" {
        return append_and_take(alloc, count, 0, false);
    }
    if mode == "take" {
        return append_and_take(alloc, count, 1, false);
    }
    if mode == "read" {
        return append_and_take(alloc, count, 1, true);
    }
    if mode == "make" {
        return make(alloc, count);
    }
    if mode == "plain" {
        return change_plain(alloc, count);
    }
    if mode == "update-64" {
        return update(rt, alloc, 64, count);
    }
    if mode == "update-256" {
        return update(rt, alloc, 256, count);
    }
    if mode == "update-4096" {
        return update(rt, alloc, 4096, count);
    }
    run_race(rt, alloc, count)
}

fn main(rt: HostRuntime) -> ExitCode {
    let alloc = rt.alloc();
    let Ok(mut words) = env::args(&rt) else {
        return ExitCode::from(1);
    };
    let _program = words.next();
    let Some(mode) = words.next() else {
        return ExitCode::from(1);
    };
    let Some(count) = words.next() else {
        return ExitCode::from(1);
    };
    let Ok(count) = count.parse::<u32>() else {
        return ExitCode::from(1);
    };
    match work(&rt, alloc, &mode, count) {
        Ok(done) => {
            let _ = println!(rt; "{done}");
            ExitCode::from(0)
        }
        Err(OutOfMemory) => ExitCode::from(1),
    }
}
"""


def build(folder):
    """The proved program, and the plain one."""
    crate = folder / "crates" / "journal_bench"
    (crate / "src").mkdir(parents=True)
    (crate / "src" / "main.rt").write_text(PROGRAM.lstrip())
    names = CRATES.split()
    lines = [line for line in (TOP / "crates.txt").read_text().splitlines() if line.split(":")[0] in names]
    for line in lines:
        name = line.split(":")[0]
        shutil.copytree(TOP / "crates" / name, folder / "crates" / name, symlinks=True)
    (folder / "crates.txt").write_text("\n".join([*lines, f"journal_bench: {CRATES}"]) + "\n")
    (folder / "HANDLES").write_text((TOP / "HANDLES").read_text())
    subprocess.run(["rt", "run", "--", "make", "0"], cwd=crate, stdout=subprocess.DEVNULL, check=True)
    plain = folder / "plain"
    source = pathlib.Path(__file__).with_name("plain_journal.rs")
    subprocess.run(["rustc", "-O", "--edition", "2021", "-o", plain, source], check=True)
    return crate / "out" / "journal_bench", plain


def instructions(program, work, count):
    command = ["valgrind", "--tool=callgrind", "--callgrind-out-file=/dev/null", program, work, str(count)]
    told = subprocess.run(command, stdout=subprocess.DEVNULL, stderr=subprocess.PIPE, text=True, check=True).stderr
    return int(told.rpartition("Collected :")[2].split()[0])


def seconds(program, work, count):
    before = resource.getrusage(resource.RUSAGE_CHILDREN)
    subprocess.run([program, work, str(count)], stdout=subprocess.DEVNULL, check=True)
    after = resource.getrusage(resource.RUSAGE_CHILDREN)
    return after.ru_utime + after.ru_stime - before.ru_utime - before.ru_stime


def each(works, count):
    """The instructions and the nanoseconds of one entry of each work: a program, a word and where it starts."""
    counted = {}
    times = {}
    for name, (program, work, start) in works.items():
        counted[name] = instructions(program, work, start + count) - instructions(program, work, start)
        times[name] = [], []
    for _ in range(RUNS):
        for name, (program, work, start) in works.items():
            times[name][0].append(seconds(program, work, start))
            times[name][1].append(seconds(program, work, start + count))
    return {
        name: [counted[name] / count, *((of(many) - of(few)) * 1e9 / count for of in (min, statistics.median))]
        for name, (few, many) in times.items()
    }


def row(name, figures, bar=None):
    told = f"{name:34} {figures[0]:12.0f} {figures[1]:10.0f} {figures[2]:10.0f}"
    if bar:
        told += " ".join(["", *(f"{figure / one:10.2f}" for figure, one in zip(figures, bar))])
    print(told, flush=True)


def less(more, fewer):
    return [one - other for one, other in zip(more, fewer)]


def clock(program, work, count):
    begun = time.monotonic()
    told = subprocess.run([program, work, str(count)], stdout=subprocess.PIPE, text=True, check=True).stdout
    return time.monotonic() - begun, told.strip()


def take(program, plain, count):
    works = {name: (plain, name, 0) for name in ["append", "take", "read", "mutex-append", "mutex-read"]}
    works |= {name: (program, name.removeprefix("our-"), 0) for name in ["our-append", "our-take", "our-read"]}
    found = each(works, count)
    row("append, unproved ring", found["append"])
    row("append, journal", found["our-append"], found["append"])
    for work in ["take", "read"]:
        ring = less(found[work], found["append"])
        row(f"{work}, unproved ring", ring)
        row(f"{work}, cursor", less(found["our-" + work], found["our-append"]), ring)
    row("read, queue under a lock", less(found["mutex-read"], found["mutex-append"]))


def update(program, plain, count):
    found = each({name: (program, name, NETS) for name in ["make", "plain", *UPDATES]}, count)
    today = less(found["plain"], found["make"])
    row("change, plain table", today)
    for work in UPDATES:
        row(f"{work.replace('-', ', ')} cells", less(found[work], found["make"]), today)


def race(program, plain, count):
    for label, which, work in [("ring", plain, "two"), ("queue", plain, "mutex-two"), ("race", program, "race")]:
        taken, told = clock(which, work, count)
        print(f"{label:34} {taken:12.2f} s {told}", flush=True)


PARTS = {"take": take, "update": update, "race": race}


def main():
    words = sys.argv[1:]
    count = int(words.pop(0)) if words and words[0].isdigit() else COUNT
    if not set(words) <= PARTS.keys():
        sys.exit("usage: bench/journal.py [COUNT] [take] [update] [race]")
    with tempfile.TemporaryDirectory() as name:
        program, plain = build(pathlib.Path(name))
        print(f"{'each':34} {'instructions':>12} {'least ns':>10} {'middle ns':>10} {'of the bar':>10}")
        for part in words or PARTS:
            PARTS[part](program, plain, count)


if __name__ == "__main__":
    main()
