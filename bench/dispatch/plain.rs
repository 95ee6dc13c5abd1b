//! `plain ROOT SCRIPT`: what `initsim dispatch ROOT SCRIPT` writes of a script that has clients and sets alone, by a plain program that nothing
//! is proved of: each client a thread that pushes its sets into a bounded queue, and one worker with the machine of bench/race over a hash map.
//! There is room for all properties, and texts have no byte that a trace would escape.
#[path = "../race/area.rs"]
mod area;
#[path = "../race/machine.rs"]
mod machine;
mod queue;

use machine::{Entry, FastMap, Machine, Output, Policy, Set, Store};
use queue::ArrayQueue;
use std::fs::read_to_string;
use std::io::{self, BufWriter, Write};
use std::sync::Arc;
use std::sync::atomic::AtomicBool;
use std::sync::atomic::Ordering::{Acquire, Release};
use std::thread;

const ROOM: usize = 64;

struct Held {
    bytes: [u8; 91],
    len: u8,
    number: u64,
}

/// Short values by name.
#[derive(Default)]
struct Map {
    held: FastMap<Arc<[u8]>, Held>,
}

impl Store for Map {
    /// The number of the set that gave the value.
    type Place = Option<u64>;

    fn find(&self, name: &[u8]) -> Option<u64> {
        self.held.get(name).map(|held| held.number)
    }

    fn number(&self, place: Option<u64>) -> Option<u64> {
        place
    }

    fn full(&self, _: Option<u64>, _: &[u8], _: usize) -> Option<(usize, usize)> {
        None
    }

    fn put(&mut self, place: Option<u64>, name: &Arc<[u8]>, number: u64, value: &[u8]) {
        if place.is_none() {
            self.held.insert(name.clone(), Held { bytes: [0; 91], len: 0, number });
        }
        let held = self.held.get_mut(name).unwrap();
        held.bytes[..value.len()].copy_from_slice(value);
        held.len = value.len() as u8;
        held.number = number;
    }
}

/// A client with its sets.
struct Session {
    name: String,
    domain: String,
    sets: Vec<Set>,
}

fn sessions_of(script: &str) -> Vec<Session> {
    let mut sessions: Vec<Session> = Vec::new();
    let mut numbers = FastMap::default();
    for line in script.lines() {
        let words: Vec<&str> = line.split_ascii_whitespace().collect();
        match words[..] {
            ["client", name, domain] => {
                numbers.insert(name, sessions.len());
                sessions.push(Session { name: name.into(), domain: domain.into(), sets: Vec::new() });
            }
            [asker, "set", name, value] => {
                let place = numbers[&asker[1..]];
                sessions[place].sets.push(Set { who: place as u32 + 1, name: name.as_bytes().into(), value: value.as_bytes().into() });
            }
            _ => panic!("the script has a line of another form: {line}"),
        }
    }
    sessions
}

fn push_all(queue: &ArrayQueue<Set>, sets: Vec<Set>) {
    for set in sets {
        let mut item = set;
        while let Err(back) = queue.push(item) {
            item = back;
            thread::yield_now();
        }
    }
}

/// Serves what is pushed, until all sessions have ended.
fn work(queue: &ArrayQueue<Set>, ended: &AtomicBool, machine: &mut Machine<Map>) {
    loop {
        let last = ended.load(Acquire);
        match queue.pop() {
            Some(set) => _ = machine.take(set),
            None if last => return,
            None => thread::yield_now(),
        }
    }
}

fn dispatch(machine: &mut Machine<Map>, parts: Vec<Vec<Set>>) {
    let (queue, ended) = (&ArrayQueue::new(ROOM), &AtomicBool::new(false));
    thread::scope(|threads| {
        threads.spawn(move || {
            thread::scope(|sessions| {
                for sets in parts {
                    sessions.spawn(move || push_all(queue, sets));
                }
            });
            ended.store(true, Release);
        });
        work(queue, ended, machine);
    });
}

fn write_entry(entry: &Entry, out: &mut impl Write) -> io::Result<()> {
    let text = |bytes| str::from_utf8(bytes).unwrap();
    let Set { who, name, value } = &entry.input;
    writeln!(out, "set {who} {} {}", text(name), text(value))?;
    for output in &entry.outputs {
        match output {
            Output::Put { number, name, value } => writeln!(out, " put {number} {} {}", text(name), text(value))?,
            Output::Accepted { number } => writeln!(out, " accepted {number}")?,
            _ => panic!("a set had another answer than is timed"),
        }
    }
    Ok(())
}

fn write_trace(history: &[Entry], clients: &[(String, String)], out: &mut impl Write) -> io::Result<()> {
    out.write_all(b"initsim 1\nboot\n")?;
    for entry in history {
        write_entry(entry, out)?;
    }
    for (number, (name, domain)) in clients.iter().enumerate() {
        writeln!(out, "client {} {name} {domain}", number + 1)?;
    }
    out.write_all(b"end\n")?;
    out.flush()
}

fn main() -> io::Result<()> {
    let words: Vec<String> = std::env::args().collect();
    let [_, root, script] = &words[..] else {
        panic!("plain ROOT SCRIPT");
    };
    let allow = read_to_string(format!("{root}/property_allow"))?;
    let labels: Vec<&str> = allow.lines().filter_map(|line| line.split(' ').nth(2)).collect();
    let policy = Policy::of(&read_to_string(format!("{root}/property_contexts"))?, &labels);
    let mut machine = Machine::new(policy, Map::default());
    let sessions = sessions_of(&read_to_string(script)?);
    let (clients, parts): (Vec<_>, Vec<_>) = sessions.into_iter().map(|it| ((it.name, it.domain), it.sets)).unzip();
    dispatch(&mut machine, parts);
    write_trace(&machine.history, &clients, &mut BufWriter::with_capacity(1 << 16, io::stdout()))
}
