//! The reading of `benches rc` in plain Rust: the same lines of the same words, as vectors of vectors of bytes.
use std::mem::take;

const BYTES: usize = 1_048_576;

#[derive(Clone, Copy, PartialEq)]
enum Mode {
    Between,
    Comment,
    Word,
    Quoted,
    Backslash,
    BackslashReturn,
    Folded,
}

#[allow(dead_code)]
struct Line {
    number: u32,
    words: Vec<Vec<u8>>,
}

struct Reader {
    lines: Vec<Line>,
    words: Vec<Vec<u8>>,
    first: u32,
    number: u32,
    token: Vec<u8>,
    has_quotes: bool,
    mode: Mode,
}

impl Reader {
    fn end_token(&mut self) {
        self.mode = Mode::Between;
        if self.has_quotes || !self.token.is_empty() {
            self.words.push(take(&mut self.token));
        }
    }

    fn end_line(&mut self) {
        self.mode = Mode::Between;
        if !self.words.is_empty() {
            self.lines.push(Line { number: self.first, words: take(&mut self.words) });
        }
    }

    fn in_word(&mut self, byte: u8) {
        match byte {
            b' ' | b'\t' | b'\r' => self.end_token(),
            b'\n' => {
                self.end_token();
                self.end_line();
            }
            b'"' => {
                self.has_quotes = true;
                self.mode = Mode::Quoted;
            }
            b'\\' => self.mode = Mode::Backslash,
            _ => self.spell(byte),
        }
    }

    fn spell(&mut self, byte: u8) {
        self.mode = Mode::Word;
        self.token.push(byte);
    }

    fn take(&mut self, byte: u8) {
        match self.mode {
            Mode::Between => match byte {
                b' ' | b'\t' | b'\r' => {}
                b'\n' => self.end_line(),
                b'#' => self.mode = Mode::Comment,
                _ => {
                    if self.words.is_empty() {
                        self.first = self.number;
                    }
                    self.has_quotes = false;
                    self.mode = Mode::Word;
                    self.in_word(byte);
                }
            },
            Mode::Comment if byte == b'\n' => self.end_line(),
            Mode::Comment => {}
            Mode::Word => self.in_word(byte),
            Mode::Quoted if byte == b'"' => self.mode = Mode::Word,
            Mode::Quoted => self.token.push(byte),
            Mode::Backslash => match byte {
                b'\n' => self.mode = Mode::Folded,
                b'\r' => self.mode = Mode::BackslashReturn,
                b'n' => self.spell(b'\n'),
                b'r' => self.spell(b'\r'),
                b't' => self.spell(b'\t'),
                _ => self.spell(byte),
            },
            Mode::BackslashReturn if byte == b'\n' => self.mode = Mode::Folded,
            Mode::BackslashReturn => {
                self.spell(b'\r');
                self.in_word(byte);
            }
            Mode::Folded if byte == b' ' || byte == b'\t' => {}
            Mode::Folded => {
                self.mode = Mode::Word;
                self.in_word(byte);
            }
        }
        if byte == b'\n' {
            self.number += 1;
        }
    }

    fn finish(mut self) -> Vec<Line> {
        match self.mode {
            Mode::Quoted | Mode::Backslash => {}
            Mode::BackslashReturn => {
                self.spell(b'\r');
                self.end_token();
                self.end_line();
            }
            Mode::Word | Mode::Folded => {
                self.end_token();
                self.end_line();
            }
            Mode::Between | Mode::Comment => self.end_line(),
        }
        self.lines
    }
}

fn lines(text: &[u8]) -> Vec<Line> {
    let mut reader = Reader {
        lines: Vec::new(),
        words: Vec::new(),
        first: 1,
        number: 1,
        token: Vec::new(),
        has_quotes: false,
        mode: Mode::Between,
    };
    for byte in text {
        reader.take(*byte);
    }
    reader.finish()
}

fn main() {
    let mut words = std::env::args().skip(2);
    let pattern: &[u8] = match words.next().unwrap().as_str() {
        "token" => b"a",
        "tokens" => b"a ",
        "line" => b"write /dev/null \"a value\" ",
        "lines" => b"a\n",
        "commands" => b"on boot\n    mkdir /data/vendor/wifi 0770 wifi wifi\n    setprop sys.wifi.state ready\n",
        "quotes" => b"\"a\" \\\n  ",
        _ => return,
    };
    let times: u32 = words.next().unwrap().parse().unwrap();
    let text: Vec<u8> = (0..BYTES).map(|place| pattern[place % pattern.len()]).collect();
    let mut found = 0;
    for _ in 0..times {
        let read = lines(&text);
        found = std::hint::black_box(&read).len();
    }
    println!("{found}");
}
