//! Bytes: hashing, names, the q form, numbers, expansion.

use std::collections::{HashMap, HashSet};
use std::hash::{BuildHasherDefault, Hasher};

/// A fast hash for short byte strings and small integers: a folded multiplication for each word.
#[derive(Default, Clone, Copy)]
pub struct Folded(u64);

const KEY: u64 = 0x9E37_79B9_7F4A_7C15;

impl Folded {
    #[inline]
    fn mix(&mut self, word: u64) {
        let product = u128::from(self.0 ^ word ^ KEY) * u128::from(0xD6E8_FEB8_6659_FD93u64);
        self.0 = (product as u64) ^ ((product >> 64) as u64);
    }
}

impl Hasher for Folded {
    #[inline]
    fn write(&mut self, bytes: &[u8]) {
        let (words, rest) = bytes.as_chunks::<8>();
        for word in words {
            self.mix(u64::from_le_bytes(*word));
        }
        if !rest.is_empty() {
            let mut last = [0; 8];
            last[..rest.len()].copy_from_slice(rest);
            self.mix(u64::from_le_bytes(last));
        }
    }

    #[inline]
    fn write_u32(&mut self, word: u32) {
        self.mix(u64::from(word));
    }

    #[inline]
    fn write_usize(&mut self, word: usize) {
        self.mix(word as u64);
    }

    #[inline]
    fn finish(&self) -> u64 {
        self.0
    }
}

pub type Fast = BuildHasherDefault<Folded>;
pub type FastMap<K, V> = HashMap<K, V, Fast>;
pub type FastSet<K> = HashSet<K, Fast>;

/// The place of a byte at or behind `from`, or the end.
#[inline]
pub fn find_byte(text: &[u8], from: usize, byte: u8) -> usize {
    const ONES: u64 = 0x0101_0101_0101_0101;
    let wanted = ONES * u64::from(byte);
    let (words, _) = text[from..].as_chunks::<8>();
    let mut at = from;
    for word in words {
        let other = u64::from_le_bytes(*word) ^ wanted;
        let zeros = other.wrapping_sub(ONES) & !other & (ONES << 7);
        if zeros != 0 {
            return at + (zeros.trailing_zeros() / 8) as usize;
        }
        at += 8;
    }
    while at < text.len() && text[at] != byte {
        at += 1;
    }
    at
}

pub fn is_blank(byte: u8) -> bool {
    matches!(byte, b' ' | b'\t' | b'\r')
}

pub fn trim(mut text: &[u8]) -> &[u8] {
    while let [first, rest @ ..] = text
        && is_blank(*first)
    {
        text = rest;
    }
    while let [rest @ .., last] = text
        && is_blank(*last)
    {
        text = rest;
    }
    text
}

/// The text before and behind the first such byte.
pub fn split_at_byte(text: &[u8], byte: u8) -> Option<(&[u8], &[u8])> {
    let at = find_byte(text, 0, byte);
    (at < text.len()).then(|| (&text[..at], &text[at + 1..]))
}

/// The text before and behind the first `:-`.
pub fn split_default(text: &[u8]) -> Option<(&[u8], &[u8])> {
    let at = text.windows(2).position(|it| it == b":-")?;
    Some((&text[..at], &text[at + 2..]))
}

/// The lines of a text; what stands behind the last LF is one unless it is empty.
pub fn lines(text: &[u8]) -> impl Iterator<Item = &[u8]> {
    let mut at = 0;
    std::iter::from_fn(move || {
        (at < text.len()).then(|| {
            let end = find_byte(text, at, b'\n');
            let line = &text[at..end];
            at = end + 1;
            line
        })
    })
}

const NAME_BYTE: [bool; 256] = {
    let mut table = [false; 256];
    let mut at = 0;
    while at < 256 {
        let byte = at as u8;
        table[at] = byte.is_ascii_alphanumeric() || matches!(byte, b'.' | b'_' | b'@' | b':' | b'-');
        at += 1;
    }
    table
};

pub fn is_legal_name(name: &[u8]) -> bool {
    if name.is_empty() || name.len() > 255 {
        return false;
    }
    let mut dot = true;
    for &byte in name {
        if !NAME_BYTE[usize::from(byte)] || dot && byte == b'.' {
            return false;
        }
        dot = byte == b'.';
    }
    !dot
}

/// The most bytes of a value in a short cell.
pub const MAX_VALUE: usize = 91;

/// The most bytes of a value under the name: those of `ro.` properties may be long.
pub fn max_value(name: &[u8]) -> usize {
    if name.starts_with(b"ro.") { 8_191 } else { MAX_VALUE }
}

pub fn is_legal_value(name: &[u8], value: &[u8]) -> bool {
    value.len() <= max_value(name) && std::str::from_utf8(value).is_ok()
}

#[inline]
fn is_plain(byte: u8) -> bool {
    byte.wrapping_sub(0x21) < 0x5E && byte != b'%'
}

const HEX: &[u8; 16] = b"0123456789ABCDEF";

/// Appends the q form of a text, by runs.
#[inline]
pub fn push_q(out: &mut Vec<u8>, text: &[u8]) {
    if text.is_empty() {
        out.push(b'%');
        return;
    }
    let mut rest = text;
    loop {
        let mut run = 0;
        while run + 16 <= rest.len()
            && rest[run..run + 16].iter().fold(true, |all, &byte| all & is_plain(byte))
        {
            run += 16;
        }
        while run < rest.len() && is_plain(rest[run]) {
            run += 1;
        }
        out.extend_from_slice(&rest[..run]);
        if run == rest.len() {
            return;
        }
        let mut spelled = run;
        while spelled < rest.len() && !is_plain(rest[spelled]) {
            let byte = rest[spelled];
            out.extend_from_slice(&[b'%', HEX[usize::from(byte >> 4)], HEX[usize::from(byte & 15)]]);
            spelled += 1;
        }
        if spelled == rest.len() {
            return;
        }
        rest = &rest[spelled..];
    }
}

fn upper_hex(byte: u8) -> Option<u8> {
    match byte {
        b'0'..=b'9' => Some(byte - b'0'),
        b'A'..=b'F' => Some(byte - b'A' + 10),
        _ => None,
    }
}

/// Whether a word is the q form of a text.
pub fn is_q(word: &[u8]) -> bool {
    if word == b"%" {
        return true;
    }
    let mut at = 0;
    while at < word.len() {
        if word[at] != b'%' {
            at += 1;
            continue;
        }
        let pair = word.get(at + 1).zip(word.get(at + 2));
        match pair.and_then(|(high, low)| Some(upper_hex(*high)? << 4 | upper_hex(*low)?)) {
            Some(byte) if !is_plain(byte) => at += 3,
            _ => return false,
        }
    }
    !word.is_empty()
}

/// The text of a word that is a q form, in `out`.
pub fn read_q(word: &[u8], out: &mut Vec<u8>) {
    out.clear();
    if word == b"%" {
        return;
    }
    let mut at = 0;
    while at < word.len() {
        let run = find_byte(word, at, b'%');
        out.extend_from_slice(&word[at..run]);
        if run == word.len() {
            return;
        }
        let (high, low) = (upper_hex(word[run + 1]), upper_hex(word[run + 2]));
        out.push(high.unwrap_or(0) << 4 | low.unwrap_or(0));
        at = run + 3;
    }
}

const PAIRS: [[u8; 2]; 100] = {
    let mut table = [[b'0'; 2]; 100];
    let mut at = 0;
    while at < 100 {
        table[at] = [b'0' + (at / 10) as u8, b'0' + (at % 10) as u8];
        at += 1;
    }
    table
};

/// Appends a number in decimal.
#[inline]
pub fn push_number(out: &mut Vec<u8>, mut number: u64) {
    let mut digits = [0; 20];
    let mut at = digits.len();
    while number >= 100 {
        at -= 2;
        digits[at..at + 2].copy_from_slice(&PAIRS[(number % 100) as usize]);
        number /= 100;
    }
    if number >= 10 {
        at -= 2;
        digits[at..at + 2].copy_from_slice(&PAIRS[number as usize]);
    } else {
        at -= 1;
        digits[at] = b'0' + number as u8;
    }
    out.extend_from_slice(&digits[at..]);
}

/// The number of one to so many digits; zeros may lead.
pub fn digits(text: &[u8], most: usize) -> Option<u64> {
    let fits = !text.is_empty() && text.len() <= most && text.iter().all(u8::is_ascii_digit);
    fits.then(|| text.iter().fold(0, |sum, digit| sum * 10 + u64::from(digit - b'0')))
}

/// The number without leading zeros within the bounds.
pub fn decimal(text: &[u8], least: u64, most: u64) -> Option<u64> {
    if text.len() > 1 && text[0] == b'0' {
        return None;
    }
    digits(text, 19).filter(|it| (least..=most).contains(it))
}

/// Why a text can't be expanded.
pub enum Unexpanded {
    BadForm(usize),
    Absent(Vec<u8>),
    TooLong,
}

pub const MAX_EXPANDED: usize = 4096;

/// Appends the expansion of a text. `look` appends the value of a name, nothing where it is absent or empty.
pub fn expand(
    text: &[u8],
    out: &mut Vec<u8>,
    mut look: impl FnMut(&[u8], &mut Vec<u8>),
) -> Result<(), Unexpanded> {
    let begin = out.len();
    let mut at = 0;
    while at < text.len() {
        let run = find_byte(text, at, b'$');
        out.extend_from_slice(&text[at..run]);
        at = run;
        match text.get(at + 1) {
            _ if at == text.len() => {}
            Some(b'$') => {
                out.push(b'$');
                at += 2;
            }
            Some(b'{') => {
                let end = find_byte(text, at, b'}');
                if end == text.len() {
                    return Err(Unexpanded::BadForm(at));
                }
                let inner = &text[at + 2..end];
                let (name, default) = match split_default(inner) {
                    Some((name, default)) => (name, Some(default)),
                    None => (inner, None),
                };
                if !is_legal_name(name) {
                    return Err(Unexpanded::BadForm(at));
                }
                let before = out.len();
                look(name, out);
                if out.len() == before {
                    match default {
                        Some(default) => out.extend_from_slice(default),
                        None => return Err(Unexpanded::Absent(name.to_vec())),
                    }
                }
                at = end + 1;
            }
            _ => return Err(Unexpanded::BadForm(at)),
        }
    }
    if out.len() - begin > MAX_EXPANDED { Err(Unexpanded::TooLong) } else { Ok(()) }
}
