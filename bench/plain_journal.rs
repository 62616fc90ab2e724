//! What bench/journal.py measures the proved journal beside: an unproved ring of atomic words in the same cells, and a
//! queue under a lock. Each appends entries of 13 words, and takes them in turns of a thousand, of which it
//! adds up all words or the last ones, or on a second thread.

use std::collections::VecDeque;
use std::hint::black_box;
use std::sync::atomic::{AtomicU64, Ordering::SeqCst};
use std::sync::Mutex;
use std::thread;

const CELLS: u64 = 1024;
const CELL: usize = 256;
const WORDS: usize = 13;
const TURN: u64 = 1000;

/// A head, one reader's position, and cells.
struct Ring {
    head: AtomicU64,
    position: AtomicU64,
    cells: Vec<AtomicU64>,
}

impl Ring {
    fn new() -> Ring {
        Ring {
            head: AtomicU64::new(0),
            position: AtomicU64::new(0),
            cells: (0..CELLS as usize * CELL).map(|_| AtomicU64::new(0)).collect(),
        }
    }

    fn cell(&self, position: u64) -> &[AtomicU64] {
        let start = (position % CELLS) as usize * CELL;
        &self.cells[start..start + CELL]
    }
}

/// The one who appends, with what it knows.
struct Writer<'a> {
    ring: &'a Ring,
    head: u64,
    low: u64,
}

impl Writer<'_> {
    fn append(&mut self, words: &[u64]) -> bool {
        if self.low + CELLS <= self.head {
            self.low = self.ring.position.load(SeqCst);
            if self.low + CELLS <= self.head {
                return false;
            }
        }
        self.head += 1;
        for (place, word) in self.ring.cell(self.head).iter().zip(words) {
            place.store(*word, SeqCst);
        }
        self.ring.head.store(self.head, SeqCst);
        true
    }

    /// Whoever reads nothing stays out of the way.
    fn forget_reader(&mut self) {
        self.ring.position.store(self.head, SeqCst);
    }
}

/// One who takes, with what it knows.
struct Reader<'a> {
    ring: &'a Ring,
    position: u64,
    known: u64,
}

impl Reader<'_> {
    fn take(&mut self, words: &mut [u64; CELL]) -> Option<usize> {
        if self.known <= self.position {
            self.known = self.ring.head.load(SeqCst);
            if self.known <= self.position {
                return None;
            }
        }
        let cell = self.ring.cell(self.position + 1);
        let count = cell[0].load(SeqCst) as usize % 65536;
        for (word, place) in words.iter_mut().zip(&cell[..count]) {
            *word = place.load(SeqCst);
        }
        self.position += 1;
        self.ring.position.store(self.position, SeqCst);
        Some(count)
    }
}

fn entry(number: u64) -> [u64; WORDS] {
    let mut words = [number; WORDS];
    words[0] = WORDS as u64;
    words
}

fn sum_of(words: &[u64]) -> u64 {
    words.iter().fold(0, |sum, word| sum.wrapping_add(*word))
}

fn next_of(queue: &Mutex<VecDeque<[u64; WORDS]>>) -> Option<[u64; WORDS]> {
    queue.lock().unwrap().pop_front()
}

fn last_of(words: &[u64]) -> u64 {
    words.last().copied().unwrap_or(0)
}

fn ring(count: u64, read: Option<impl Fn(&[u64]) -> u64>) {
    let ring = Ring::new();
    black_box(&ring);
    let mut writer = Writer { ring: &ring, head: 0, low: 0 };
    let mut reader = Reader { ring: &ring, position: 0, known: 0 };
    let mut words = [0; CELL];
    let mut sum = 0u64;
    for turn in 0..count / TURN {
        for number in 0..TURN {
            black_box(writer.append(&entry(turn * TURN + number)));
        }
        if let Some(read) = &read {
            while let Some(taken) = reader.take(&mut words) {
                sum = sum.wrapping_add(read(&words[..taken]));
            }
        } else {
            writer.forget_reader();
        }
    }
    println!("{sum}");
}

fn mutex(count: u64, takes: bool) {
    let queue = Mutex::new(VecDeque::new());
    let mut sum = 0u64;
    for turn in 0..count / TURN {
        for number in 0..TURN {
            queue.lock().unwrap().push_back(entry(turn * TURN + number));
        }
        if takes {
            while let Some(words) = next_of(&queue) {
                sum = sum.wrapping_add(sum_of(&words));
            }
        } else {
            queue.lock().unwrap().clear();
        }
    }
    println!("{sum}");
}

fn ring_of_two(count: u64) {
    let ring = Ring::new();
    let mut writer = Writer { ring: &ring, head: 0, low: 0 };
    let mut reader = Reader { ring: &ring, position: 0, known: 0 };
    thread::scope(|scope| {
        scope.spawn(|| {
            let mut words = [0; CELL];
            while reader.position < count {
                if black_box(reader.take(&mut words)).is_none() {
                    thread::yield_now();
                }
            }
        });
        for number in 0..count {
            while !writer.append(&entry(number)) {
                thread::yield_now();
            }
        }
    });
}

fn mutex_of_two(count: u64) {
    let queue = Mutex::new(VecDeque::new());
    thread::scope(|scope| {
        scope.spawn(|| {
            let mut taken = 0;
            while taken < count {
                match black_box(queue.lock().unwrap().pop_front()) {
                    Some(_) => taken += 1,
                    None => thread::yield_now(),
                }
            }
        });
        for number in 0..count {
            queue.lock().unwrap().push_back(entry(number));
        }
    });
}

fn main() {
    let words: Vec<String> = std::env::args().collect();
    let count = words[2].parse().unwrap();
    match words[1].as_str() {
        "append" => ring(count, None::<fn(&[u64]) -> u64>),
        "take" => ring(count, Some(last_of)),
        "read" => ring(count, Some(sum_of)),
        "mutex-append" => mutex(count, false),
        "mutex-read" => mutex(count, true),
        "two" => ring_of_two(count),
        "mutex-two" => mutex_of_two(count),
        _ => panic!("no such work"),
    }
}
