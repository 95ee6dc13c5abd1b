// Clients on threads in plain Rust, for comparison: a lock round a small sequential machine, which judges a set, puts it into the
// words of an area and keeps a history, and readers over the words without a lock. `plain sets|reads|mixed|beside CLIENTS N` as
// `benches race` has it; `plain map_sets|map_reads|map_mixed|map_beside CLIENTS N`, over a hash map, with the machine and the map
// behind one lock for reading and writing.
mod area;
mod machine;

use area::{Answer, Area, End, Writer, is_legal, most_bytes};
use machine::{FastMap, Machine, Policy, Store};
use std::sync::atomic::{AtomicU64, Ordering::SeqCst};
use std::sync::{Arc, Mutex, RwLock};

const WORDS: usize = 1_048_576;
const NAMES: usize = 1_024;
const OWN: usize = 16;
const VALUE: &[u8] = b"a value of middling length";

const CONTEXTS: &str = "* default_prop prefix string
persist. persist_prop prefix string
persist.sys.usb.config usb_prop exact enum none adb mtp
sys. system_prop prefix string
sys.boot_completed boot_prop exact bool
vendor. vendor_prop prefix string
vendor.thermal.level thermal_prop exact uint
debug. debug_prop prefix string
wifi. wifi_prop prefix string";

const LABELS: [&str; 6] = ["default_prop", "persist_prop", "system_prop", "vendor_prop", "debug_prop", "wifi_prop"];

impl Store for Writer<'_> {
    type Place = End;

    fn find(&self, name: &[u8]) -> End {
        self.area.search(name)
    }

    fn number(&self, place: End) -> Option<u64> {
        match place {
            End::Cell(cell) => Some(self.area.number_at(cell)),
            _ => None,
        }
    }

    fn full(&self, place: End, name: &[u8], len: usize) -> Option<(usize, usize)> {
        let need = self.area.need(place, name, len);
        (self.used + need > self.words()).then_some((self.used, need))
    }

    fn put(&mut self, place: End, name: &Arc<[u8]>, number: u64, value: &[u8]) {
        Writer::put(self, place, name, number, value)
    }
}

struct Held {
    bytes: [u8; 91],
    len: u8,
    number: u64,
}

/// Short values by name. It has room for any number of them.
#[derive(Default)]
struct Map {
    held: FastMap<Arc<[u8]>, Held>,
}

impl Store for Map {
    type Place = ();

    fn find(&self, _: &[u8]) {}

    fn number(&self, _: ()) -> Option<u64> {
        None
    }

    fn full(&self, _: (), _: &[u8], _: usize) -> Option<(usize, usize)> {
        None
    }

    fn put(&mut self, _: (), name: &Arc<[u8]>, number: u64, value: &[u8]) {
        if !self.held.contains_key(name) {
            self.held.insert(name.clone(), Held { bytes: [0; 91], len: 0, number });
        }
        let held = self.held.get_mut(name).unwrap();
        held.bytes[..value.len()].copy_from_slice(value);
        held.len = value.len() as u8;
        held.number = number;
    }
}

/// What clients ask. A reader has a number: how many sets it has seen.
trait Service: Sync {
    fn set(&self, who: u32, name: &[u8]) -> bool;
    fn read(&self, number: &mut u64, name: &[u8], out: &mut [u8]) -> Answer;
    fn history(&self) -> usize;
}

struct OverArea<'a> {
    area: &'a Area,
    machine: Mutex<Machine<Writer<'a>>>,
}

impl Service for OverArea<'_> {
    #[inline(never)]
    fn set(&self, who: u32, name: &[u8]) -> bool {
        self.machine.lock().unwrap().set(who, name, VALUE).is_ok()
    }

    fn read(&self, number: &mut u64, name: &[u8], out: &mut [u8]) -> Answer {
        let answer = self.area.read(name, out);
        if let Answer::Found { number: own, .. } = answer {
            *number = own.max(*number);
        }
        answer
    }

    fn history(&self) -> usize {
        self.machine.lock().unwrap().history.len()
    }
}

struct OverMap {
    machine: RwLock<Machine<Map>>,
}

impl Service for OverMap {
    #[inline(never)]
    fn set(&self, who: u32, name: &[u8]) -> bool {
        self.machine.write().unwrap().set(who, name, VALUE).is_ok()
    }

    fn read(&self, number: &mut u64, name: &[u8], out: &mut [u8]) -> Answer {
        match self.machine.read().unwrap().read().held.get(name) {
            Some(held) => {
                out[..91].copy_from_slice(&held.bytes);
                *number = held.number.max(*number);
                Answer::Found { len: held.len as usize, number: *number }
            }
            None => Answer::Absent,
        }
    }

    fn history(&self) -> usize {
        self.machine.read().unwrap().history.len()
    }
}

#[derive(Clone, Copy, PartialEq)]
enum Kind {
    Sets,
    Reads,
    Mixed,
    Beside,
}

struct Stage<'a, S> {
    service: &'a S,
    names: &'a [String],
    kind: Kind,
    calls: usize,
    /// How many clients have calls left.
    busy: AtomicU64,
}

impl<S: Service> Stage<'_, S> {
    fn name(&self, first: usize, call: usize) -> &[u8] {
        self.names[first + call % OWN].as_bytes()
    }

    #[inline(never)]
    fn read(&self, number: &mut u64, name: &[u8], out: &mut [u8]) -> bool {
        if !is_legal(name) || most_bytes(name) > out.len() {
            return false;
        }
        match self.service.read(number, name, out) {
            Answer::Found { len, .. } => len == VALUE.len() && out[0] == VALUE[0],
            Answer::Absent => false,
            Answer::Again => self.kind == Kind::Beside,
        }
    }

    /// A client's calls: how many were right, and how many sets there were.
    fn calls(&self, who: u32) -> (usize, usize) {
        let first = if self.kind == Kind::Beside { 0 } else { (who as usize - 1) * OWN };
        let mut out = vec![0; 8_191];
        let (mut right, mut sets, mut number) = (0, 0, 0);
        for call in 0..self.calls {
            let name = self.name(first, call);
            let is_set = self.kind == Kind::Sets || self.kind == Kind::Mixed && call % 10 == 0;
            sets += usize::from(is_set);
            right += usize::from(if is_set { self.service.set(who, name) } else { self.read(&mut number, name, &mut out) });
        }
        self.busy.fetch_sub(1, SeqCst);
        (right, sets)
    }

    fn sets_beside(&self) -> (usize, usize) {
        let mut sets = 0;
        while self.busy.load(SeqCst) > 0 && self.service.set(1, self.name(0, sets)) {
            sets += 1;
        }
        (0, sets)
    }

    fn act(&self, who: u32) -> (usize, usize) {
        if self.kind == Kind::Beside && who == 1 { self.sets_beside() } else { self.calls(who) }
    }
}

/// How many calls were right. The history has to be that of all sets.
fn right_calls<S: Service>(service: &S, names: &[String], kind: Kind, clients: u32, calls: usize) -> usize {
    for name in names {
        assert!(service.set(clients, name.as_bytes()));
    }
    let beside = u32::from(kind == Kind::Beside);
    let stage = &Stage { service, names, kind, calls, busy: AtomicU64::new((clients - beside).into()) };
    let made: Vec<_> = std::thread::scope(|threads| {
        let started: Vec<_> = (1..=clients).map(|who| threads.spawn(move || stage.act(who))).collect();
        started.into_iter().map(|thread| thread.join().unwrap()).collect()
    });
    assert_eq!(service.history(), NAMES + made.iter().map(|it| it.1).sum::<usize>());
    made.iter().map(|it| it.0).sum()
}

fn top(place: usize) -> &'static str {
    ["boot", "persist", "sys", "vendor", "init", "debug", "dalvik", "wifi"][place % 8]
}

fn main() {
    let words: Vec<String> = std::env::args().collect();
    let (is_map, kind) = match words[1].strip_prefix("map_") {
        Some(kind) => (true, kind),
        None => (false, words[1].as_str()),
    };
    let kind = match kind {
        "sets" => Kind::Sets,
        "reads" => Kind::Reads,
        "mixed" => Kind::Mixed,
        _ => Kind::Beside,
    };
    let clients = words[2].parse::<u32>().unwrap() + u32::from(kind == Kind::Beside);
    let calls = words[3].parse().unwrap();
    let places = (0..NAMES).map(|k| k * 7919 % NAMES);
    let names: Vec<_> = places.map(|place| format!("{}.part{}.key{place}", top(place), place / 8 % 50)).collect();
    let policy = Policy::of(CONTEXTS, &LABELS);
    let right = if is_map {
        let service = OverMap { machine: RwLock::new(Machine::new(policy, Map::default())) };
        right_calls(&service, &names, kind, clients, calls)
    } else {
        let area = Area::new(WORDS);
        let service = OverArea { area: &area, machine: Mutex::new(Machine::new(policy, Writer::new(&area))) };
        right_calls(&service, &names, kind, clients, calls)
    };
    println!("{right}");
}
