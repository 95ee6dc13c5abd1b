//! The area: its words, loads and stores, sequentially consistent, as the documents have them.
use std::cmp::Ordering;
use std::sync::atomic::{AtomicU64, Ordering::SeqCst};

const BACKUP: usize = 4;
const HEAD: usize = 16;
const SHORT: usize = 91;
const LONG_TOP: u64 = 255;

const DOT: u8 = 1;
const OTHER: u8 = 2;

static KINDS: [u8; 256] = kinds();

const fn kinds() -> [u8; 256] {
    let mut kinds = [OTHER; 256];
    let mut b = 0;
    while b < 256 {
        if (b as u8).is_ascii_alphanumeric() || matches!(b as u8, b'-' | b'_' | b'@' | b':') {
            kinds[b] = 0;
        }
        b += 1;
    }
    kinds[b'.' as usize] = DOT;
    kinds
}

pub fn is_legal(name: &[u8]) -> bool {
    let (mut seen, mut before) = (0, DOT);
    for &b in name {
        let kind = KINDS[b as usize];
        seen |= kind | (kind & before) << 1;
        before = kind;
    }
    name.len() <= 255 && seen < OTHER && before != DOT
}

pub fn most_bytes(name: &[u8]) -> usize {
    if name.starts_with(b"ro.") { 8_191 } else { SHORT }
}

fn cell_words(len: usize) -> usize {
    if len <= SHORT { 13 } else { 2 + len.div_ceil(8) }
}

/// The word with this place of some bytes, behind which zeros stand.
fn word_of(bytes: &[u8], k: usize) -> u64 {
    let rest = &bytes[(8 * k).min(bytes.len())..];
    match rest.first_chunk() {
        Some(word) => u64::from_le_bytes(*word),
        None => rest.iter().rev().fold(0, |word, &b| word << 8 | u64::from(b)),
    }
}

/// The first word of a part of so many bytes, at the front of the rest of its name.
fn first_word(rest: &[u8], len: usize) -> u64 {
    match rest.first_chunk() {
        Some(word) if len < 8 => u64::from_le_bytes(*word) & ((1 << (8 * len)) - 1),
        _ => word_of(&rest[..len], 0),
    }
}

fn put_words(words: impl Iterator<Item = u64>, out: &mut [u8]) {
    for (bytes, word) in out.chunks_mut(8).zip(words) {
        bytes.copy_from_slice(&word.to_le_bytes()[..bytes.len()]);
    }
}

fn part_len(rest: &[u8]) -> usize {
    rest.iter().position(|&b| b == b'.').unwrap_or(rest.len())
}

/// Where a walk ends.
#[derive(Clone, Copy)]
pub enum End {
    Cell(usize),
    /// At the link of a node that has no cell.
    NoCell(usize),
    /// At a link, before the part of the name that begins here.
    NoNode(usize, usize),
}

pub enum Answer {
    Found { len: usize, number: u64 },
    Absent,
    Again,
}

pub struct Area {
    words: Vec<AtomicU64>,
}

impl Area {
    pub fn new(words: usize) -> Area {
        Area { words: (0..words).map(|_| AtomicU64::new(0)).collect() }
    }

    fn load(&self, at: usize) -> u64 {
        self.words[at].load(SeqCst)
    }

    fn store(&self, at: usize, word: u64) {
        self.words[at].store(word, SeqCst)
    }

    // A word that stands already is not stored again.
    fn put(&self, at: usize, word: u64) {
        if self.load(at) != word {
            self.store(at, word);
        }
    }

    fn compare(&self, place: usize, part: &[u8], first: u64) -> Ordering {
        let len = self.load(place) as usize;
        if part.len() != len {
            return part.len().cmp(&len);
        }
        let order = first.cmp(&self.load(place + 5).swap_bytes());
        if order.is_ne() {
            return order;
        }
        for k in 1..len.div_ceil(8) {
            let order = word_of(part, k).swap_bytes().cmp(&self.load(place + 5 + k).swap_bytes());
            if order.is_ne() {
                return order;
            }
        }
        Ordering::Equal
    }

    pub fn search(&self, name: &[u8]) -> End {
        let mut from = 0;
        let mut link = 1;
        loop {
            let rest = &name[from..];
            let part = &rest[..part_len(rest)];
            let first = first_word(rest, part.len()).swap_bytes();
            let place = loop {
                let place = self.load(link) as usize;
                if place == 0 {
                    return End::NoNode(link, from);
                }
                match self.compare(place, part, first) {
                    Ordering::Less => link = place + 1,
                    Ordering::Greater => link = place + 2,
                    Ordering::Equal => break place,
                }
            };
            let end = from + part.len();
            if end == name.len() {
                return match self.load(place + 4) as usize {
                    0 => End::NoCell(place + 4),
                    cell => End::Cell(cell),
                };
            }
            from = end + 1;
            link = place + 3;
        }
    }

    pub fn read(&self, name: &[u8], out: &mut [u8]) -> Answer {
        let End::Cell(cell) = self.search(name) else {
            return Answer::Absent;
        };
        let first = self.load(cell);
        let number = first << 8 >> 9;
        let len = if first >> 56 == LONG_TOP { self.read_long(cell, out) } else { self.read_short(cell, first, out) };
        if self.load(cell) == first { Answer::Found { len, number } } else { Answer::Again }
    }

    fn read_long(&self, cell: usize, out: &mut [u8]) -> usize {
        let len = self.load(cell + 1) as usize;
        put_words((cell + 2..).map(|at| self.load(at)), &mut out[..len]);
        len
    }

    /// The words are put down once all are loaded. A read that met a write is found out by the serial.
    fn read_short(&self, cell: usize, first: u64, out: &mut [u8]) -> usize {
        let base = if first % 2 == 1 { BACKUP } else { cell + 1 };
        let words: [u64; 12] = std::array::from_fn(|k| self.load(base + k));
        let out: &mut [u8; SHORT] = out.first_chunk_mut().unwrap();
        for k in 0..11 {
            out[8 * k..8 * k + 8].copy_from_slice(&words[k].to_le_bytes());
        }
        out[88..].copy_from_slice(&words[11].to_le_bytes()[..3]);
        (first >> 56) as usize
    }

    /// The number of the set that gave the value of a cell.
    pub fn number_at(&self, cell: usize) -> u64 {
        self.load(cell) << 8 >> 9
    }

    /// How many words a set adds whose walk ended here.
    pub fn need(&self, end: End, name: &[u8], len: usize) -> usize {
        match end {
            End::Cell(_) => 0,
            End::NoCell(_) => cell_words(len),
            End::NoNode(_, from) => {
                cell_words(len) + name[from..].split(|&b| b == b'.').map(|part| 5 + part.len().div_ceil(8)).sum::<usize>()
            }
        }
    }

    fn write_cell(&self, cell: usize, number: u64, value: &[u8]) {
        let clean = self.load(cell);
        let old: [u64; 12] = std::array::from_fn(|k| self.load(cell + 1 + k));
        for k in 0..12 {
            self.put(BACKUP + k, old[k]);
        }
        self.store(cell, clean + 1);
        for k in 0..12 {
            self.put(cell + 1 + k, word_of(value, k));
        }
        self.store(cell, ((value.len() as u64) << 56) + number * 2);
    }

    fn add_nodes(&self, mut link: usize, mut from: usize, name: &[u8], place: &mut usize) -> usize {
        loop {
            let rest = &name[from..];
            let part = &rest[..part_len(rest)];
            let node = *place;
            self.put(node, part.len() as u64);
            for k in 1..5 {
                self.put(node + k, 0);
            }
            for k in 0..part.len().div_ceil(8) {
                self.put(node + 5 + k, word_of(part, k));
            }
            self.store(link, node as u64);
            *place += 5 + part.len().div_ceil(8);
            if from + part.len() == name.len() {
                return node + 4;
            }
            from += part.len() + 1;
            link = node + 3;
        }
    }

    fn add_cell(&self, cell: usize, number: u64, value: &[u8]) {
        let short = value.len() <= SHORT;
        let top = if short { value.len() as u64 } else { LONG_TOP };
        self.put(cell, (top << 56) + number * 2);
        if !short {
            self.put(cell + 1, value.len() as u64);
        }
        let (first, count) = if short { (cell + 1, 12) } else { (cell + 2, value.len().div_ceil(8)) };
        for k in 0..count {
            self.put(first + k, word_of(value, k));
        }
    }
}

/// The area's one writer.
pub struct Writer<'a> {
    pub area: &'a Area,
    pub used: usize,
}

impl<'a> Writer<'a> {
    pub fn new(area: &'a Area) -> Writer<'a> {
        Writer { area, used: HEAD }
    }

    pub fn words(&self) -> usize {
        self.area.words.len()
    }

    /// A set, at the end of the walk of its name.
    pub fn put(&mut self, end: End, name: &[u8], number: u64, value: &[u8]) {
        let link = match end {
            End::Cell(cell) => {
                self.area.write_cell(cell, number, value);
                self.area.store(0, number);
                return;
            }
            End::NoCell(link) => link,
            End::NoNode(link, from) => self.area.add_nodes(link, from, name, &mut self.used),
        };
        self.area.add_cell(self.used, number, value);
        self.area.store(link, self.used as u64);
        self.used += cell_words(value.len());
        self.area.store(0, number);
    }
}
