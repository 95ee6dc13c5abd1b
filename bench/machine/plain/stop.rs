//! How a call ends other than well.

#[derive(Debug)]
pub enum Stop {
    Usage,
    Read,
    Write,
    BadScript(usize),
    NoInit,
    TooLarge(u64),
    BadContexts(usize),
    BadAllow(usize),
    BadStore(usize, &'static str),
}

impl Stop {
    pub fn status(&self) -> u8 {
        match self {
            Stop::Usage => 1,
            Stop::Read => 2,
            Stop::Write => 3,
            Stop::BadScript(_) => 5,
            Stop::NoInit => 6,
            Stop::TooLarge(_) => 7,
            Stop::BadContexts(_) | Stop::BadAllow(_) => 8,
            Stop::BadStore(..) => 9,
        }
    }
}

impl std::fmt::Display for Stop {
    fn fmt(&self, out: &mut std::fmt::Formatter<'_>) -> std::fmt::Result {
        match self {
            Stop::Usage => out.write_str("usage: run ROOT SCRIPT | check ROOT"),
            Stop::Read => out.write_str("read fault"),
            Stop::Write => out.write_str("write fault"),
            Stop::BadScript(line) => write!(out, "bad script line {line}"),
            Stop::NoInit => out.write_str("no init.rc"),
            Stop::TooLarge(number) => write!(out, "too large {number}"),
            Stop::BadContexts(line) => write!(out, "bad contexts line {line}"),
            Stop::BadAllow(line) => write!(out, "bad allow line {line}"),
            Stop::BadStore(line, cause) => write!(out, "bad store line {line} {cause}"),
        }
    }
}
