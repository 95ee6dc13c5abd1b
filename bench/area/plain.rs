// The area in plain Rust, for comparison: the same words, loads and stores, sequentially consistent, and the same walk and
// checks of names. `plain read|absent|put|name|value|length|read_200|read_8000 NAMES N`, of which `name` checks names alone, `value`
// checks them as values, `length` looks at their lengths, and the last two read long values of so many bytes; and `plain map|map_absent NAMES N`, which reads a hash map behind a lock for reading. Where
// one of these kinds of reads ends with `_beside`, another thread sets the names in turn until the reads are made.
use std::cmp::Ordering;
use std::collections::HashMap;
use std::sync::atomic::{AtomicBool, AtomicU64, Ordering::SeqCst};
use std::sync::RwLock;

const BACKUP: usize = 4;
const SHORT: usize = 91;
const LONG_TOP: u64 = 255;

fn most_bytes(name: &[u8]) -> usize {
    if name.starts_with(b"ro.") { 8_191 } else { SHORT }
}

fn cell_words(len: usize) -> usize {
    if len <= SHORT { 13 } else { 2 + len.div_ceil(8) }
}

struct Area {
    words: Vec<AtomicU64>,
}

const DOT: u8 = 1;
const OTHER: u8 = 2;

static KINDS: [u8; 256] = kinds();

const fn kinds() -> [u8; 256] {
    let mut kinds = [OTHER; 256];
    let mut b = 0;
    while b < 256 {
        if (b as u8).is_ascii_alphanumeric() || matches!(b as u8, b'-' | b'_' | b'@' | b':') {
            kinds[b] = 0;
        }
        b += 1;
    }
    kinds[b'.' as usize] = DOT;
    kinds
}

fn is_legal(name: &[u8]) -> bool {
    let (mut seen, mut before) = (0, DOT);
    for &b in name {
        let kind = KINDS[b as usize];
        seen |= kind | (kind & before) << 1;
        before = kind;
    }
    name.len() <= 255 && seen < OTHER && before != DOT
}

fn word_of(value: &[u8], k: usize) -> u64 {
    let mut bytes = [0u8; 8];
    for j in 0..8 {
        if 8 * k + j < value.len() {
            bytes[j] = value[8 * k + j];
        }
    }
    u64::from_le_bytes(bytes)
}

enum End {
    Cell(usize),
    NoCell(usize),
    NoNode(usize, usize),
}

impl Area {
    fn load(&self, at: usize) -> u64 {
        self.words[at].load(SeqCst)
    }

    fn store(&self, at: usize, word: u64) {
        self.words[at].store(word, SeqCst)
    }

    // A word that stands already is not stored again.
    fn put(&self, at: usize, word: u64) {
        if self.load(at) != word {
            self.store(at, word);
        }
    }

    fn compare(&self, place: usize, part: &[u8]) -> Ordering {
        let len = self.load(place) as usize;
        if part.len() != len {
            return part.len().cmp(&len);
        }
        for k in 0..len.div_ceil(8) {
            let a = word_of(part, k).swap_bytes();
            let b = self.load(place + 5 + k).swap_bytes();
            if a != b {
                return a.cmp(&b);
            }
        }
        Ordering::Equal
    }

    fn search(&self, name: &[u8]) -> End {
        let mut from = 0;
        let mut link = 1;
        loop {
            let rest = &name[from..];
            let len = rest.iter().position(|&b| b == b'.').unwrap_or(rest.len());
            let place = loop {
                let place = self.load(link) as usize;
                if place == 0 {
                    return End::NoNode(link, from);
                }
                match self.compare(place, &rest[..len]) {
                    Ordering::Less => link = place + 1,
                    Ordering::Greater => link = place + 2,
                    Ordering::Equal => break place,
                }
            };
            let end = from + len;
            if end == name.len() {
                return match self.load(place + 4) as usize {
                    0 => End::NoCell(place + 4),
                    cell => End::Cell(cell),
                };
            }
            from = end + 1;
            link = place + 3;
        }
    }

    fn read_long(&self, cell: usize, first: u64, out: &mut [u8]) -> Option<bool> {
        let len = self.load(cell + 1) as usize;
        let mut chunks = out[..len].chunks_exact_mut(8);
        let mut at = cell + 2;
        for chunk in &mut chunks {
            chunk.copy_from_slice(&self.load(at).to_le_bytes());
            at += 1;
        }
        let rest = chunks.into_remainder();
        if !rest.is_empty() {
            rest.copy_from_slice(&self.load(at).to_le_bytes()[..rest.len()]);
        }
        if self.load(cell) == first { Some(true) } else { None }
    }

    fn read(&self, name: &[u8], out: &mut [u8]) -> Option<bool> {
        let End::Cell(cell) = self.search(name) else {
            return Some(false);
        };
        let first = self.load(cell);
        if first >> 56 == LONG_TOP {
            return self.read_long(cell, first, out);
        }
        let out = &mut out[..SHORT];
        let base = if first % 2 == 1 { BACKUP } else { cell + 1 };
        let mut words = [0; 12];
        for k in 0..12 {
            words[k] = self.load(base + k);
        }
        if self.load(cell) != first {
            return None;
        }
        for k in 0..12 {
            let bytes = words[k].to_le_bytes();
            for j in 0..8 {
                if 8 * k + j < 91 {
                    out[8 * k + j] = bytes[j];
                }
            }
        }
        Some(true)
    }

    fn write_cell(&self, cell: usize, number: u64, value: &[u8]) {
        let clean = self.load(cell);
        let mut old = [0; 12];
        for k in 0..12 {
            old[k] = self.load(cell + 1 + k);
        }
        for k in 0..12 {
            self.put(BACKUP + k, old[k]);
        }
        self.store(cell, clean + 1);
        for k in 0..12 {
            self.put(cell + 1 + k, word_of(value, k));
        }
        self.store(cell, ((value.len() as u64) << 56) + number * 2);
    }

    fn add(&self, end: End, name: &[u8], number: u64, value: &[u8], mark: usize) -> usize {
        let mut place = mark;
        let mut top = 0;
        if let End::NoCell(link) = end {
            top = link;
        }
        if let End::NoNode(mut link, mut from) = end {
            loop {
                let rest = &name[from..];
                let len = rest.iter().position(|&b| b == b'.').unwrap_or(rest.len());
                let part = &rest[..len];
                self.put(place, len as u64);
                for k in 1..5 {
                    self.put(place + k, 0);
                }
                for k in 0..len.div_ceil(8) {
                    self.put(place + 5 + k, word_of(part, k));
                }
                self.store(link, place as u64);
                let node = place;
                place += 5 + len.div_ceil(8);
                if from + len == name.len() {
                    top = node + 4;
                    break;
                }
                from += len + 1;
                link = node + 3;
            }
        }
        if value.len() <= SHORT {
            self.put(place, ((value.len() as u64) << 56) + number * 2);
            for k in 0..12 {
                self.put(place + 1 + k, word_of(value, k));
            }
        } else {
            self.put(place, (LONG_TOP << 56) + number * 2);
            self.put(place + 1, value.len() as u64);
            for k in 0..value.len().div_ceil(8) {
                self.put(place + 2 + k, word_of(value, k));
            }
        }
        self.store(top, place as u64);
        place + cell_words(value.len())
    }
}

struct Writer<'a> {
    area: &'a Area,
    count: u64,
    mark: usize,
}

impl Writer<'_> {
    fn needs(&self, name: &[u8], len: usize) -> usize {
        match self.area.search(name) {
            End::Cell(_) => 0,
            End::NoCell(_) => cell_words(len),
            End::NoNode(_, from) => {
                cell_words(len) + name[from..].split(|&b| b == b'.').map(|p| 5 + p.len().div_ceil(8)).sum::<usize>()
            }
        }
    }

    #[inline(never)]
    fn set(&mut self, name: &[u8], value: &[u8]) {
        if !is_legal(name) || value.len() > most_bytes(name) || std::str::from_utf8(value).is_err() {
            return;
        }
        if self.mark + self.needs(name, value.len()) > self.area.words.len() {
            return;
        }
        if name.starts_with(b"ro.") && matches!(self.area.search(name), End::Cell(_)) {
            return;
        }
        let number = self.count + 1;
        match self.area.search(name) {
            End::Cell(cell) => self.area.write_cell(cell, number, value),
            end => self.mark = self.area.add(end, name, number, value, self.mark),
        }
        self.area.store(0, number);
        self.count = number;
    }
}

fn top(place: usize) -> &'static str {
    ["boot", "persist", "sys", "vendor", "init", "debug", "dalvik", "wifi"][place % 8]
}

fn names_of(count: usize, front: &str, end: &str) -> Vec<String> {
    (0..count)
        .map(|k| {
            let place = k * 7919 % count;
            format!("{front}{}.part{}.key{place}{end}", top(place), place / 8 % 50)
        })
        .collect()
}

#[inline(never)]
fn read(area: &Area, name: &str, out: &mut [u8]) -> Option<bool> {
    if !is_legal(name.as_bytes()) || most_bytes(name.as_bytes()) > out.len() {
        return None;
    }
    area.read(name.as_bytes(), out)
}

#[inline(never)]
fn is_name(name: &str) -> bool {
    is_legal(name.as_bytes())
}

#[inline(never)]
fn is_value(value: &str) -> bool {
    value.len() <= 8_191 && std::str::from_utf8(value.as_bytes()).is_ok()
}

#[inline(never)]
fn is_short(name: &str) -> bool {
    name.len() <= 255
}

// So many checks in turn, of which it counts those that are legal.
fn checks(names: &[String], calls: usize, is_legal: impl Fn(&str) -> bool) -> usize {
    let (mut legal, mut at) = (0, 0);
    for _ in 0..calls {
        if at >= names.len() {
            at = 0;
        }
        if is_legal(&names[at]) {
            legal += 1;
        }
        at += 1;
    }
    legal
}

type Map = RwLock<HashMap<String, ([u8; 91], usize)>>;

#[inline(never)]
fn look_up(map: &Map, name: &str, out: &mut [u8; 91]) -> Option<bool> {
    if !is_legal(name.as_bytes()) {
        return None;
    }
    match map.read().unwrap().get(name) {
        Some((value, _)) => {
            out.copy_from_slice(value);
            Some(true)
        }
        None => Some(false),
    }
}

#[inline(never)]
fn replace(map: &Map, name: &str, value: &[u8]) {
    if !is_legal(name.as_bytes()) || value.len() > 91 || std::str::from_utf8(value).is_err() {
        return;
    }
    if let Some((bytes, len)) = map.write().unwrap().get_mut(name) {
        bytes[..value.len()].copy_from_slice(value);
        *len = value.len();
    }
}

// So many reads on this thread; where there is a writer, another makes sets until the reads are made.
fn reads(asked: &[String], calls: usize, mut read: impl FnMut(&str) -> bool, set: Option<impl FnMut() + Send>) -> usize {
    let stop = &AtomicBool::new(false);
    std::thread::scope(|threads| {
        if let Some(mut set) = set {
            threads.spawn(move || {
                // So many looks between two sets, so that the rate is that of the looks.
                while !(0..4_096).any(|_| stop.load(SeqCst)) {
                    set();
                }
            });
        }
        let right = asked.iter().cycle().take(calls).filter(|name| read(name)).count();
        stop.store(true, SeqCst);
        right
    })
}

fn main() {
    let words: Vec<String> = std::env::args().collect();
    let kind = words[1].as_str();
    let count: usize = words[2].parse().unwrap();
    let calls: usize = words[3].parse().unwrap();
    let long = match kind {
        "read_200" => vec![b'x'; 200],
        "read_8000" => vec![b'x'; 8_000],
        _ => vec![],
    };
    let short = b"a value of middling length";
    let (value, front): (&[u8], &str) = if long.is_empty() { (short, "") } else { (&long, "ro.") };
    let names = names_of(count, front, "");
    let mut in_turn = names.iter().cycle();
    let beside = kind.ends_with("_beside");
    let found = !kind.contains("absent");
    let asked = names_of(count, front, if found { "" } else { "x" });
    let mut out = vec![0; 8_191];
    let check: Option<fn(&str) -> bool> = match kind {
        "name" => Some(is_name),
        "value" => Some(is_value),
        "length" => Some(is_short),
        _ => None,
    };
    if let Some(check) = check {
        println!("{}", checks(&names, calls, check));
        return;
    }
    if kind.starts_with("map") {
        let mut kept = [0; 91];
        kept[..value.len()].copy_from_slice(value);
        let mut out = [0; 91];
        let map: Map = RwLock::new(names.iter().map(|n| (n.clone(), (kept, value.len()))).collect());
        let set = beside.then_some(|| replace(&map, in_turn.next().unwrap(), value));
        println!("{}", reads(&asked, calls, |name| look_up(&map, name, &mut out) == Some(found), set));
        return;
    }
    let area = Area { words: (0..1_048_576).map(|_| AtomicU64::new(0)).collect() };
    let mut writer = Writer { area: &area, count: 0, mark: 16 };
    for name in &names {
        writer.set(name.as_bytes(), value);
    }
    if kind == "put" {
        in_turn.take(calls).for_each(|name| writer.set(name.as_bytes(), value));
        println!("{}", writer.count - count as u64);
        return;
    }
    let set = beside.then_some(|| writer.set(in_turn.next().unwrap().as_bytes(), value));
    // A read that met a write is right only where there is a writer.
    let is_right = |name: &str| read(&area, name, &mut out).map_or(beside, |there| there == found);
    println!("{}", reads(&asked, calls, is_right, set));
}
