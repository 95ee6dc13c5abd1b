//! The policy's texts, and the persistent store's.

use crate::import::Files;
use crate::stop::Stop;
use crate::text::{FastMap, FastSet, digits, is_blank, is_legal_name, is_legal_value, is_q, lines, push_q, read_q};
use std::collections::BTreeMap;
use std::rc::Rc;

pub enum Kind {
    Any,
    Bool,
    Int,
    Uint,
    Enum(Box<[Box<[u8]>]>),
}

impl Kind {
    #[inline]
    pub fn admits(&self, value: &[u8]) -> bool {
        match self {
            Kind::Any => true,
            _ if value.is_empty() => true,
            Kind::Bool => matches!(value, b"0" | b"1" | b"false" | b"true"),
            Kind::Int => match value.strip_prefix(b"-") {
                Some(value) => digits(value, 19).is_some_and(|it| it <= 1 << 63),
                None => digits(value, 19).is_some_and(|it| it < 1 << 63),
            },
            Kind::Uint => match value {
                [first @ b'0'..=b'9', rest @ ..] if rest.len() == 19 => {
                    digits(rest, 19).is_some_and(|it| within_u64(u64::from(first - b'0'), it))
                }
                _ => digits(value, 19).is_some(),
            },
            Kind::Enum(values) => values.iter().any(|it| **it == *value),
        }
    }
}

/// Whether a digit and nineteen behind it are below 2^64.
fn within_u64(first: u64, rest: u64) -> bool {
    first.checked_mul(10_000_000_000_000_000_000).and_then(|it| it.checked_add(rest)).is_some()
}

pub struct Context {
    pub label: Box<[u8]>,
    pub kind: Kind,
    /// The clients that may set it, a bit for each.
    pub clients: u64,
}

/// The contexts of names. Prefixes are ascending, each with the place of the longest other that it begins with.
pub struct Policy {
    pub contexts: Vec<Context>,
    default: u32,
    exact: FastMap<Box<[u8]>, u32>,
    prefixes: Vec<(Box<[u8]>, u32, Option<u32>)>,
}

fn words(line: &[u8]) -> impl Iterator<Item = &[u8]> {
    line.split(|it| is_blank(*it)).filter(|it| !it.is_empty())
}

fn kind_of(rest: &[&[u8]]) -> Option<Kind> {
    Some(match rest {
        [] | [b"string" | b"double" | b"size"] => Kind::Any,
        [b"bool"] => Kind::Bool,
        [b"int"] => Kind::Int,
        [b"uint"] => Kind::Uint,
        [b"enum", values @ ..] if !values.is_empty() => Kind::Enum(values.iter().map(|it| Box::from(*it)).collect()),
        _ => return None,
    })
}

impl Policy {
    pub fn read(files: &mut Files, domains: &[Vec<u8>]) -> Result<Policy, Stop> {
        let (mut contexts, mut allow) = (Vec::new(), Vec::new());
        if !files.read(b"/property_contexts", &mut contexts)? {
            contexts = b"* default_prop".to_vec();
        }
        if !files.read(b"/property_allow", &mut allow)? {
            allow.clear();
        }
        let mut policy = Policy::contexts_of(&contexts)?;
        policy.allow(&allow, domains)?;
        Ok(policy)
    }

    fn contexts_of(text: &[u8]) -> Result<Policy, Stop> {
        let mut policy =
            Policy { contexts: Vec::new(), default: u32::MAX, exact: FastMap::default(), prefixes: Vec::new() };
        let mut prefixes = FastMap::default();
        let mut count = 0;
        for line in lines(text) {
            count += 1;
            let words: Vec<_> = words(line).collect();
            let bad = Err(Stop::BadContexts(count));
            let (name, label, rest) = match &words[..] {
                [] => continue,
                [first, ..] if first[0] == b'#' => continue,
                [name, label, rest @ ..] => (*name, *label, rest),
                _ => return bad,
            };
            let (exact, typed) = match rest {
                [] => (false, rest),
                [b"exact", typed @ ..] => (true, typed),
                [b"prefix", typed @ ..] => (false, typed),
                _ => return bad,
            };
            let Some(kind) = kind_of(typed) else {
                return bad;
            };
            let at = policy.contexts.len() as u32;
            let is_new = if name == b"*" {
                std::mem::replace(&mut policy.default, at) == u32::MAX
            } else {
                let table = if exact { &mut policy.exact } else { &mut prefixes };
                table.insert(Box::from(name), at).is_none()
            };
            if !is_new {
                return bad;
            }
            policy.contexts.push(Context { label: Box::from(label), kind, clients: 0 });
        }
        if policy.default == u32::MAX {
            return Err(Stop::BadContexts(count + 1));
        }
        policy.prefixes = chained(prefixes);
        Ok(policy)
    }

    fn allow(&mut self, text: &[u8], domains: &[Vec<u8>]) -> Result<(), Stop> {
        let mut pairs: FastSet<(&[u8], &[u8])> = FastSet::default();
        for (number, line) in lines(text).enumerate() {
            let words: Vec<_> = words(line).collect();
            match &words[..] {
                [] => {}
                [first, ..] if first[0] == b'#' => {}
                [b"allow", domain, label] => {
                    pairs.insert((domain, label));
                }
                _ => return Err(Stop::BadAllow(number + 1)),
            }
        }
        for context in &mut self.contexts {
            for (client, domain) in domains.iter().enumerate() {
                if pairs.contains(&(&domain[..], &context.label[..])) {
                    context.clients |= 1 << client;
                }
            }
        }
        Ok(())
    }

    /// The context of the exact line, else of the longest prefix line, else the default.
    pub fn context_of(&self, name: &[u8]) -> u32 {
        if let Some(at) = self.exact.get(name) {
            return *at;
        }
        let behind = self.prefixes.partition_point(|(prefix, ..)| **prefix <= *name);
        let mut at = behind.checked_sub(1);
        while let Some(place) = at {
            let (prefix, context, shorter) = &self.prefixes[place];
            if name.starts_with(prefix) {
                return *context;
            }
            at = shorter.map(|it| it as usize);
        }
        self.default
    }
}

fn chained(prefixes: FastMap<Box<[u8]>, u32>) -> Vec<(Box<[u8]>, u32, Option<u32>)> {
    let mut found: Vec<_> = prefixes.into_iter().map(|(prefix, at)| (prefix, at, None)).collect();
    found.sort_unstable();
    let mut open: Vec<u32> = Vec::new();
    for at in 0..found.len() {
        while let Some(last) = open.last()
            && !found[at].0.starts_with(&found[*last as usize].0)
        {
            open.pop();
        }
        found[at].2 = open.last().copied();
        open.push(at as u32);
    }
    found
}

pub type Saved = BTreeMap<Rc<[u8]>, Rc<[u8]>>;

fn lower_hex(byte: u8) -> Option<u8> {
    match byte {
        b'0'..=b'9' => Some(byte - b'0'),
        b'a'..=b'f' => Some(byte - b'a' + 10),
        _ => None,
    }
}

fn value_of(hex: &[u8]) -> Option<Vec<u8>> {
    let (pairs, rest) = hex.as_chunks::<2>();
    if hex == b"-" {
        return Some(Vec::new());
    }
    if pairs.is_empty() || !rest.is_empty() {
        return None;
    }
    pairs.iter().map(|[high, low]| Some(lower_hex(*high)? << 4 | lower_hex(*low)?)).collect()
}

/// The type of a word of the store, by which the value is checked.
fn saved_kind(word: &[u8]) -> Option<Kind> {
    Some(match word {
        b"any" | b"enum" => Kind::Any,
        b"bool" => Kind::Bool,
        b"int" => Kind::Int,
        b"uint" => Kind::Uint,
        _ => return None,
    })
}

fn saved_word(kind: &Kind) -> &'static [u8] {
    match kind {
        Kind::Any => b"any",
        Kind::Bool => b"bool",
        Kind::Int => b"int",
        Kind::Uint => b"uint",
        Kind::Enum(_) => b"enum",
    }
}

/// The value of a word: hexadecimal in version 1, in q form in version 2.
fn value_in(is_typed: bool, word: &[u8]) -> Option<Vec<u8>> {
    if !is_typed {
        return value_of(word);
    }
    let is_printed = word.iter().all(|it| (0x21..=0x7e).contains(it));
    (is_printed && is_q(word)).then(|| {
        let mut value = Vec::new();
        read_q(word, &mut value);
        value
    })
}

/// The name and the value of a line behind that of another name.
fn pair_of<'a>(is_typed: bool, last: &[u8], line: &'a [u8]) -> Result<(&'a [u8], Vec<u8>), &'static str> {
    let words: Vec<_> = line.split(|it| *it == b' ').collect();
    let (name, kind, word) = match words[..] {
        [name, word] if !is_typed => (name, b"any".as_slice(), word),
        [name, kind, word] if is_typed => (name, kind, word),
        _ => return Err("Shape"),
    };
    if name.is_empty() || kind.is_empty() || word.is_empty() {
        return Err("Shape");
    }
    if !is_legal_name(name) || !name.starts_with(b"persist.") {
        return Err("Name");
    }
    if name <= last {
        return Err("Order");
    }
    let kind = saved_kind(kind).ok_or("Kind")?;
    let value = value_in(is_typed, word).filter(|it| is_legal_value(name, it) && kind.admits(it)).ok_or("Value")?;
    Ok((name, value))
}

pub fn read_store(text: &[u8]) -> Result<Saved, Stop> {
    let mut saved = Saved::new();
    let mut last: &[u8] = b"";
    let mut at = 0;
    let mut number = 0;
    let mut is_typed = false;
    while at < text.len() {
        number += 1;
        let end = crate::text::find_byte(text, at, b'\n');
        let line = &text[at..end];
        if number == 1 {
            is_typed = line == b"persist 2";
            if !is_typed && line != b"persist 1" {
                return Err(Stop::BadStore(1, "Head"));
            }
        }
        if end == text.len() {
            return Err(Stop::BadStore(number, "Shape"));
        }
        at = end + 1;
        if number == 1 {
            continue;
        }
        let (name, value) = pair_of(is_typed, last, line).map_err(|cause| Stop::BadStore(number, cause))?;
        saved.insert(Rc::from(name), Rc::from(value));
        last = name;
    }
    Ok(saved)
}

pub fn print_store(saved: &Saved, policy: &Policy, out: &mut Vec<u8>) {
    out.clear();
    out.extend_from_slice(b"persist 2\n");
    for (name, value) in saved {
        out.extend_from_slice(name);
        out.push(b' ');
        out.extend_from_slice(saved_word(&policy.contexts[policy.context_of(name) as usize].kind));
        out.push(b' ');
        push_q(out, value);
        out.push(b'\n');
    }
}
