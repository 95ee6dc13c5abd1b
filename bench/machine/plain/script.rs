//! Scripts. Texts stay where they stand in the script, in q form, which each text has once.

use crate::stop::Stop;
use crate::text::{FastMap, decimal, find_byte, is_blank, is_legal_name, is_q, read_q};

pub const MAX_BYTES: usize = 16 << 20;
const MAX_LINES: usize = 100_000;
const MAX_STEPS: u64 = 1_000_000;
const MAX_CLOCK: u64 = 1 << 53;
const MAX_CLIENTS: usize = 64;

/// A word of the script.
#[derive(Clone, Copy)]
pub struct Place {
    start: u32,
    end: u32,
}

impl Place {
    pub fn of(self, script: &[u8]) -> &[u8] {
        &script[self.start as usize..self.end as usize]
    }
}

pub enum Act {
    Step(u32),
    Tick(u64),
    Exit(Place, u8),
    File(Place, Place),
    Set(u8, Place, Place),
    Read(u8, Place),
    Sync(u8),
    Catch(u8),
}

pub struct Client {
    pub name: Place,
    pub domain: Place,
}

pub struct Script {
    pub area: u64,
    pub plans: FastMap<Box<[u8]>, (u64, u8)>,
    pub clients: Vec<Client>,
    pub acts: Vec<Act>,
}

struct Reader<'a> {
    text: &'a [u8],
    script: Script,
    has_area: bool,
    ids: FastMap<&'a [u8], u8>,
    steps: u64,
}

pub fn text_of(word: &[u8]) -> Vec<u8> {
    let mut text = Vec::new();
    read_q(word, &mut text);
    text
}

pub fn read(text: &[u8]) -> Result<Script, Stop> {
    if text.len() > MAX_BYTES {
        return Err(Stop::TooLarge(MAX_BYTES as u64 + 1));
    }
    let script = Script { area: 65536, plans: FastMap::default(), clients: Vec::new(), acts: Vec::new() };
    let mut reader = Reader { text, script, has_area: false, ids: FastMap::default(), steps: 0 };
    let (mut at, mut number, mut bad) = (0, 0, None);
    let mut words = Vec::new();
    while at < text.len() {
        number += 1;
        let end = find_byte(text, at, b'\n');
        if reader.line(at, end, &mut words).is_none() && bad.is_none() {
            bad = Some(number);
        }
        at = end + 1;
    }
    if number > MAX_LINES {
        return Err(Stop::TooLarge(number as u64));
    }
    if reader.steps > MAX_STEPS {
        return Err(Stop::TooLarge(reader.steps));
    }
    match bad {
        Some(line) => Err(Stop::BadScript(line)),
        None => Ok(reader.script),
    }
}

impl<'a> Reader<'a> {
    fn line(&mut self, begin: usize, end: usize, words: &mut Vec<Place>) -> Option<()> {
        let line = &self.text[begin..end];
        words.clear();
        let (mut at, mut is_bad) = (0, false);
        while at < line.len() {
            let start = at;
            while at < line.len() && (0x21..=0x7E).contains(&line[at]) {
                at += 1;
            }
            if at > start {
                words.push(Place { start: (begin + start) as u32, end: (begin + at) as u32 });
            } else {
                is_bad |= line[at] != b' ' && line[at] != b'\t';
                at += 1;
            }
        }
        if is_bad {
            return line.iter().all(|it| is_blank(*it)).then_some(());
        }
        let [first, args @ ..] = &words[..] else {
            return Some(());
        };
        let text = self.text;
        match (first.of(text), args) {
            ([b'#', ..], _) => Some(()),
            (b"step", [count]) => {
                let count = decimal(count.of(text), 1, 1_000_000)?;
                self.steps += count;
                self.act(Act::Step(count as u32))
            }
            (b"tick", [ms]) => self.act(Act::Tick(decimal(ms.of(text), 0, MAX_CLOCK)?)),
            (b"exit", [name, status]) => {
                let status = decimal(status.of(text), 0, 255)?;
                self.act(Act::Exit(self.q(*name)?, status as u8))
            }
            (b"file", [path, content]) => self.act(Act::File(self.q(*path)?, self.q(*content)?)),
            ([b'@', name @ ..], [word, rest @ ..]) => self.ask(name, word.of(text), rest),
            (word, args) if self.script.acts.is_empty() => self.declaration(word, args),
            _ => None,
        }
    }

    fn act(&mut self, act: Act) -> Option<()> {
        self.script.acts.push(act);
        Some(())
    }

    fn q(&self, place: Place) -> Option<Place> {
        is_q(place.of(self.text)).then_some(place)
    }

    fn ask(&mut self, name: &[u8], word: &[u8], args: &[Place]) -> Option<()> {
        let who = *self.ids.get(name)?;
        match (word, args) {
            (b"set", [name, value]) => self.act(Act::Set(who, self.q(*name)?, self.q(*value)?)),
            (b"read", [name]) if is_legal_name(name.of(self.text)) => self.act(Act::Read(who, *name)),
            (b"sync", []) => self.act(Act::Sync(who)),
            (b"catch", []) => self.act(Act::Catch(who)),
            _ => None,
        }
    }

    fn declaration(&mut self, word: &[u8], args: &[Place]) -> Option<()> {
        match (word, args) {
            (b"area", [words]) if !self.has_area => {
                self.script.area = decimal(words.of(self.text), 64, 1_048_576)?;
                self.has_area = true;
            }
            (b"plan", [path, after, status]) => {
                let path = text_of(self.q(*path)?.of(self.text)).into_boxed_slice();
                let after = decimal(after.of(self.text), 0, MAX_CLOCK)?;
                let status = decimal(status.of(self.text), 0, 255)? as u8;
                if self.script.plans.contains_key(&path) {
                    return None;
                }
                self.script.plans.insert(path, (after, status));
            }
            (b"client", [name, domain]) if self.script.clients.len() < MAX_CLIENTS => {
                let (name, domain) = (self.q(*name)?, self.q(*domain)?);
                let id = self.script.clients.len() as u8;
                if self.ids.contains_key(name.of(self.text)) {
                    return None;
                }
                self.ids.insert(name.of(self.text), id);
                self.script.clients.push(Client { name, domain });
            }
            _ => return None,
        }
        Some(())
    }
}
