//! `plain MESSAGES`: the replies that `initsim wire ROOT MESSAGES` gives, by a plain program over a hash map that nothing is proved of.
//! Everybody may set every property, no property has a type, and there is room for all. The replies to a piece of the stream are
//! written before the next one is read.

#[path = "../machine/plain/text.rs"]
#[allow(dead_code)]
mod text;

use std::collections::HashMap;
use std::fs::File;
use std::hash::BuildHasherDefault;
use std::io::{self, Read, Write};
use std::process::exit;
use text::{Folded, is_legal_name, is_legal_value};

const FIRST: u32 = 1;
const SECOND: u32 = 0x0002_0001;
const NAME_FIELD: usize = 32;
const VALUE_FIELD: usize = 92;
const MAX_NAME: u32 = 1_024;
const MAX_VALUE: u32 = 8_192;
const MAX_MESSAGE: usize = 12 + MAX_NAME as usize + MAX_VALUE as usize;

const PIECE: usize = 1 << 16;

const ACCEPTED: u32 = 0;
const BAD_LENGTH: u32 = 0x08;
const READ_ONLY: u32 = 0x0B;
const BAD_NAME: u32 = 0x10;
const BAD_VALUE: u32 = 0x14;
const BAD_COMMAND: u32 = 0x1B;
const NO_SERVICE: u32 = 0x20;

/// The status of a stream with a bad message.
const BAD_WIRE: i32 = 11;

struct Message<'a> {
    has_reply: bool,
    name: &'a [u8],
    value: &'a [u8],
    len: usize,
}

enum Front<'a> {
    Whole(Message<'a>),
    Unfinished,
    Bad { reply: u32 },
}

fn word_at(bytes: &[u8], at: usize) -> Option<u32> {
    bytes.get(at..)?.first_chunk().copied().map(u32::from_le_bytes)
}

/// The text in a field of form one: it ends before the first zero, and the last byte counts as zero.
fn field_text(field: &[u8]) -> &[u8] {
    let text = &field[..field.len() - 1];
    let end = text.iter().position(|&byte| byte == 0);
    &text[..end.unwrap_or(text.len())]
}

fn first_form(bytes: &[u8]) -> Front<'_> {
    const LEN: usize = 4 + NAME_FIELD + VALUE_FIELD;
    let Some(message) = bytes.get(4..LEN) else {
        return Front::Unfinished;
    };
    let (name, value) = message.split_at(NAME_FIELD);
    Front::Whole(Message { has_reply: false, name: field_text(name), value: field_text(value), len: LEN })
}

fn second_form(bytes: &[u8]) -> Front<'_> {
    let Some(name_len) = word_at(bytes, 4) else {
        return Front::Unfinished;
    };
    if name_len > MAX_NAME {
        return Front::Bad { reply: BAD_LENGTH };
    }
    let name_end = 8 + name_len as usize;
    let Some(value_len) = word_at(bytes, name_end) else {
        return Front::Unfinished;
    };
    if value_len > MAX_VALUE {
        return Front::Bad { reply: BAD_LENGTH };
    }
    let value_at = name_end + 4;
    let len = value_at + value_len as usize;
    if bytes.len() < len {
        return Front::Unfinished;
    }
    Front::Whole(Message { has_reply: true, name: &bytes[8..name_end], value: &bytes[value_at..len], len })
}

fn front_of(bytes: &[u8]) -> Front<'_> {
    match word_at(bytes, 0) {
        None => Front::Unfinished,
        Some(FIRST) => first_form(bytes),
        Some(SECOND) => second_form(bytes),
        Some(_) => Front::Bad { reply: BAD_COMMAND },
    }
}

#[derive(Default)]
struct Properties {
    values: HashMap<Vec<u8>, Vec<u8>, BuildHasherDefault<Folded>>,
}

impl Properties {
    /// Sets a property. The reply says whether it was accepted.
    fn set(&mut self, name: &[u8], value: &[u8]) -> u32 {
        if !is_legal_name(name) {
            return BAD_NAME;
        }
        if name.starts_with(b"ctl.") {
            return NO_SERVICE;
        }
        if !is_legal_value(name, value) {
            return BAD_VALUE;
        }
        match self.values.get_mut(name) {
            Some(_) if name.starts_with(b"ro.") => return READ_ONLY,
            Some(former) => {
                former.clear();
                former.extend_from_slice(value);
            }
            None => {
                self.values.insert(name.to_vec(), value.to_vec());
            }
        }
        ACCEPTED
    }
}

/// How a stream ended.
enum End {
    Whole,
    Bad { at: usize },
}

/// Answers the whole messages at the front of the bytes. Gives how many bytes they are, and whether a bad one follows.
fn answer(properties: &mut Properties, bytes: &[u8], replies: &mut Vec<u8>) -> (usize, bool) {
    let mut at = 0;
    loop {
        match front_of(&bytes[at..]) {
            Front::Whole(message) => {
                let reply = properties.set(message.name, message.value);
                if message.has_reply {
                    replies.extend_from_slice(&reply.to_le_bytes());
                }
                at += message.len;
            }
            Front::Unfinished => return (at, false),
            Front::Bad { reply } => {
                replies.extend_from_slice(&reply.to_le_bytes());
                return (at, true);
            }
        }
    }
}

fn serve(from: &mut impl Read, to: &mut impl Write) -> io::Result<End> {
    let mut properties = Properties::default();
    let mut replies = Vec::new();
    let mut bytes = vec![0; MAX_MESSAGE + PIECE];
    let (mut have, mut place) = (0, 0);
    loop {
        let got = from.read(&mut bytes[have..have + PIECE])?;
        if got == 0 {
            return Ok(if have == 0 { End::Whole } else { End::Bad { at: place } });
        }
        have += got;
        let (taken, is_bad) = answer(&mut properties, &bytes[..have], &mut replies);
        to.write_all(&replies)?;
        to.flush()?;
        replies.clear();
        place += taken;
        if is_bad {
            return Ok(End::Bad { at: place });
        }
        bytes.copy_within(taken..have, 0);
        have -= taken;
    }
}

fn main() {
    let Some(path) = std::env::args_os().nth(1) else {
        eprintln!("plain MESSAGES");
        exit(1);
    };
    match File::open(path).and_then(|mut from| serve(&mut from, &mut io::stdout().lock())) {
        Ok(End::Whole) => {}
        Ok(End::Bad { at }) => {
            eprintln!("initsim: bad message at {at}");
            exit(BAD_WIRE);
        }
        Err(why) => {
            eprintln!("plain: {why}");
            exit(2);
        }
    }
}
