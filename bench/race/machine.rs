//! A small sequential machine: it judges a set by the policy, puts it into a store, and keeps a history.
use crate::area::{is_legal, most_bytes};
use std::collections::HashMap;
use std::hash::{BuildHasherDefault, Hasher};
use std::sync::Arc;

/// A fast hash for short byte strings: a folded multiplication for each word.
#[derive(Default, Clone, Copy)]
pub struct Folded(u64);

impl Hasher for Folded {
    fn write(&mut self, bytes: &[u8]) {
        for chunk in bytes.chunks(8) {
            let mut word = [0; 8];
            word[..chunk.len()].copy_from_slice(chunk);
            let product = u128::from(self.0 ^ u64::from_le_bytes(word) ^ 0x9E37_79B9_7F4A_7C15) * 0xD6E8_FEB8_6659_FD93;
            self.0 = (product as u64) ^ ((product >> 64) as u64);
        }
    }

    fn finish(&self) -> u64 {
        self.0
    }
}

pub type FastMap<K, V> = HashMap<K, V, BuildHasherDefault<Folded>>;

pub enum Kind {
    Any,
    Bool,
    Uint,
    Enum(Vec<Box<[u8]>>),
}

impl Kind {
    fn admits(&self, value: &[u8]) -> bool {
        match self {
            Kind::Any => true,
            Kind::Bool => matches!(value, b"0" | b"1" | b"true" | b"false"),
            Kind::Uint => !value.is_empty() && value.len() <= 19 && value.iter().all(u8::is_ascii_digit),
            Kind::Enum(values) => values.iter().any(|it| **it == *value),
        }
    }
}

pub struct Context {
    label: Arc<[u8]>,
    kind: Kind,
    /// The clients that may set it, a bit for each.
    clients: u64,
}

/// The contexts of names. Prefixes are ascending, each with the place of the longest other that it begins with.
pub struct Policy {
    contexts: Vec<Context>,
    default: usize,
    exact: FastMap<Box<[u8]>, usize>,
    prefixes: Vec<(Box<[u8]>, usize, Option<usize>)>,
}

impl Policy {
    /// The policy of lines of a name, a label, `exact` or `prefix`, and a type. Every client may set the properties of these labels.
    pub fn of(lines: &str, labels: &[&str]) -> Policy {
        let mut policy = Policy { contexts: Vec::new(), default: 0, exact: FastMap::default(), prefixes: Vec::new() };
        for line in lines.lines() {
            let words: Vec<&str> = line.split(' ').collect();
            let kind = match words[3..] {
                ["bool"] => Kind::Bool,
                ["uint"] => Kind::Uint,
                ["enum", ref values @ ..] => Kind::Enum(values.iter().map(|it| it.as_bytes().into()).collect()),
                _ => Kind::Any,
            };
            let at = policy.contexts.len();
            match (words[0], words[2]) {
                ("*", _) => policy.default = at,
                (name, "exact") => drop(policy.exact.insert(name.as_bytes().into(), at)),
                (name, _) => policy.prefixes.push((name.as_bytes().into(), at, None)),
            }
            let clients = if labels.contains(&words[1]) { u64::MAX } else { 0 };
            policy.contexts.push(Context { label: words[1].as_bytes().into(), kind, clients });
        }
        policy.chain();
        policy
    }

    fn chain(&mut self) {
        self.prefixes.sort_unstable();
        for at in 0..self.prefixes.len() {
            self.prefixes[at].2 = (0..at).rev().find(|before| self.prefixes[at].0.starts_with(&self.prefixes[*before].0));
        }
    }

    /// The context of the exact line, else of the longest prefix line, else the default.
    fn context_of(&self, name: &[u8]) -> &Context {
        &self.contexts[self.exact.get(name).copied().unwrap_or_else(|| self.prefix_of(name))]
    }

    fn prefix_of(&self, name: &[u8]) -> usize {
        let behind = self.prefixes.partition_point(|(prefix, ..)| **prefix <= *name);
        let mut at = behind.checked_sub(1);
        while let Some(place) = at {
            let (prefix, context, shorter) = &self.prefixes[place];
            if name.starts_with(prefix) {
                return *context;
            }
            at = *shorter;
        }
        self.default
    }
}

#[derive(Clone)]
pub enum Refusal {
    Down,
    InvalidName,
    UnknownControl,
    Denied { context: Arc<[u8]> },
    NoSuchService,
    InvalidType,
    ValueTooLong { len: usize },
    NotUtf8,
    ReadOnly { number: u64 },
    AreaFull { used: usize, need: usize },
    NumberSpent { last: u64 },
}

pub enum Output {
    Put { number: u64, name: Arc<[u8]>, value: Arc<[u8]> },
    Stored { name: Arc<[u8]> },
    Released,
    Accepted { number: u64 },
    Refused { refusal: Refusal },
}

pub struct Set {
    pub who: u32,
    pub name: Arc<[u8]>,
    pub value: Arc<[u8]>,
}

pub struct Entry {
    pub input: Set,
    pub outputs: Vec<Output>,
}

/// Where the values of properties are.
pub trait Store {
    type Place: Copy;

    fn find(&self, name: &[u8]) -> Self::Place;

    /// The number of the set that gave the value.
    fn number(&self, place: Self::Place) -> Option<u64>;

    /// The words in use, and those that the set adds beside them, where they have no room.
    fn full(&self, place: Self::Place, name: &[u8], len: usize) -> Option<(usize, usize)>;

    fn put(&mut self, place: Self::Place, name: &Arc<[u8]>, number: u64, value: &[u8]);
}

pub struct Machine<S> {
    policy: Policy,
    store: S,
    count: u64,
    /// The target of a shutdown, once there was one.
    over: Option<Arc<[u8]>>,
    saving: bool,
    saved: std::collections::BTreeMap<Arc<[u8]>, Arc<[u8]>>,
    changes: bool,
    queue: std::collections::VecDeque<(Arc<[u8]>, Arc<[u8]>)>,
    /// The property and the value that the machine waits for.
    waits: Option<(Arc<[u8]>, Arc<[u8]>)>,
    pub history: Vec<Entry>,
}

impl<S: Store> Machine<S> {
    pub fn new(policy: Policy, store: S) -> Machine<S> {
        Machine {
            policy,
            store,
            count: 0,
            over: None,
            saving: false,
            saved: Default::default(),
            changes: false,
            queue: Default::default(),
            waits: None,
            history: Vec::new(),
        }
    }

    pub fn read(&self) -> &S {
        &self.store
    }

    /// A set of a client, which it answers with the count of sets, or with why it is refused.
    pub fn set(&mut self, who: u32, name: &[u8], value: &[u8]) -> Result<u64, Refusal> {
        self.take(Set { who, name: name.into(), value: value.into() })
    }

    /// The same of a set whose texts are made.
    pub fn take(&mut self, input: Set) -> Result<u64, Refusal> {
        let mut outputs = Vec::with_capacity(2);
        let answer = match self.judge(input.who, &input.name, &input.value) {
            Ok(place) => {
                self.put(place, &input, &mut outputs);
                outputs.push(Output::Accepted { number: self.count });
                Ok(self.count)
            }
            Err(refusal) => {
                outputs.push(Output::Refused { refusal: refusal.clone() });
                Err(refusal)
            }
        };
        self.history.push(Entry { input, outputs });
        answer
    }

    fn put(&mut self, place: S::Place, input: &Set, outputs: &mut Vec<Output>) {
        let Set { name, value, .. } = input;
        self.count += 1;
        self.store.put(place, name, self.count, value);
        if self.changes {
            self.queue.push_back((name.clone(), value.clone()));
        }
        outputs.push(Output::Put { number: self.count, name: name.clone(), value: value.clone() });
        if self.saving && name.starts_with(b"persist.") {
            self.saved.insert(name.clone(), value.clone());
            outputs.push(Output::Stored { name: name.clone() });
        }
        if self.waits.as_ref().is_some_and(|wait| wait.0 == *name && wait.1 == *value) {
            self.waits = None;
            outputs.push(Output::Released);
        }
    }

    fn judge(&self, who: u32, name: &[u8], value: &[u8]) -> Result<S::Place, Refusal> {
        if self.over.is_some() {
            return Err(Refusal::Down);
        }
        if !is_legal(name) {
            return Err(Refusal::InvalidName);
        }
        let control = name.starts_with(b"ctl.");
        if control && !matches!(&name[4..], b"start" | b"stop" | b"restart") {
            return Err(Refusal::UnknownControl);
        }
        let context = self.policy.context_of(name);
        if context.clients >> (who - 1) & 1 == 0 {
            return Err(Refusal::Denied { context: context.label.clone() });
        }
        if control {
            return Err(Refusal::NoSuchService);
        }
        if !context.kind.admits(value) {
            return Err(Refusal::InvalidType);
        }
        self.judge_value(name, value)
    }

    fn judge_value(&self, name: &[u8], value: &[u8]) -> Result<S::Place, Refusal> {
        if value.len() > most_bytes(name) {
            return Err(Refusal::ValueTooLong { len: value.len() });
        }
        if std::str::from_utf8(value).is_err() {
            return Err(Refusal::NotUtf8);
        }
        let place = self.store.find(name);
        if name.starts_with(b"ro.")
            && let Some(number) = self.store.number(place)
        {
            return Err(Refusal::ReadOnly { number });
        }
        if let Some((used, need)) = self.store.full(place, name, value.len()) {
            return Err(Refusal::AreaFull { used, need });
        }
        if self.count == (1 << 55) - 1 {
            return Err(Refusal::NumberSpent { last: self.count });
        }
        Ok(place)
    }
}
