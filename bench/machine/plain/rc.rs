//! Rc files: tokens, and what their sections say.

use crate::text::{FastMap, MAX_EXPANDED, digits, find_byte, is_legal_name, push_number, push_q, split_at_byte, split_default};

/// A text of the arena.
#[derive(Clone, Copy)]
pub struct Span {
    pub start: u32,
    pub len: u32,
}

/// Tokens, one behind the other. Token k stands between the ends k and k + 1.
pub struct Arena {
    pub text: Vec<u8>,
    pub ends: Vec<u32>,
}

impl Arena {
    pub fn new() -> Arena {
        Arena { text: Vec::new(), ends: vec![0] }
    }

    pub fn count(&self) -> usize {
        self.ends.len() - 1
    }

    #[inline]
    pub fn token(&self, at: usize) -> &[u8] {
        &self.text[self.ends[at] as usize..self.ends[at + 1] as usize]
    }

    pub fn span(&self, at: usize) -> Span {
        Span { start: self.ends[at], len: self.ends[at + 1] - self.ends[at] }
    }

    pub fn get(&self, span: Span) -> &[u8] {
        &self.text[span.start as usize..][..span.len as usize]
    }

    fn cut(&mut self, count: usize) {
        self.ends.truncate(count + 1);
        self.text.truncate(self.ends[count] as usize);
    }
}

const BLANK: u8 = 1;
const LINE_END: u8 = 2;
const QUOTE: u8 = 3;
const BACKSLASH: u8 = 4;
const CLASS: [u8; 256] = {
    let mut table = [0; 256];
    table[b' ' as usize] = BLANK;
    table[b'\t' as usize] = BLANK;
    table[b'\r' as usize] = BLANK;
    table[b'\n' as usize] = LINE_END;
    table[b'"' as usize] = QUOTE;
    table[b'\\' as usize] = BACKSLASH;
    table
};

struct Lexer<'a> {
    data: &'a [u8],
    at: usize,
    line: u32,
}

enum Line {
    /// Where its first token begins.
    Is(u32),
    Dropped(u32),
    End,
}

impl Lexer<'_> {
    /// Appends the tokens of the next line that has any.
    fn next(&mut self, arena: &mut Arena) -> Line {
        let begin = arena.count();
        let mut first = 0;
        while let Some(&byte) = self.data.get(self.at) {
            match CLASS[usize::from(byte)] {
                BLANK => self.at += 1,
                LINE_END => {
                    self.line += 1;
                    self.at += 1;
                    if arena.count() > begin {
                        return Line::Is(first);
                    }
                }
                _ if byte == b'#' => self.at = find_byte(self.data, self.at, b'\n'),
                _ => {
                    let start = self.line;
                    let text = arena.text.len();
                    let quoted = self.token(&mut arena.text);
                    if arena.count() == begin {
                        first = start;
                    }
                    match quoted {
                        None => {
                            arena.cut(begin);
                            return Line::Dropped(first);
                        }
                        Some(quoted) if quoted || arena.text.len() > text => {
                            arena.ends.push(arena.text.len() as u32);
                        }
                        Some(_) => {}
                    }
                }
            }
        }
        if arena.count() > begin { Line::Is(first) } else { Line::End }
    }

    /// Appends one token, and says whether it has quotes; none where the file ends within it.
    fn token(&mut self, text: &mut Vec<u8>) -> Option<bool> {
        let mut quoted = false;
        loop {
            let run = self.at;
            while self.at < self.data.len() && CLASS[usize::from(self.data[self.at])] == 0 {
                self.at += 1;
            }
            text.extend_from_slice(&self.data[run..self.at]);
            match self.data.get(self.at) {
                Some(b'"') => {
                    quoted = true;
                    let end = find_byte(self.data, self.at + 1, b'"');
                    let inner = &self.data[self.at + 1..end];
                    if end == self.data.len() {
                        return None;
                    }
                    self.line += inner.iter().filter(|it| **it == b'\n').count() as u32;
                    text.extend_from_slice(inner);
                    self.at = end + 1;
                }
                Some(b'\\') => self.escape(text)?,
                _ => return Some(quoted),
            }
        }
    }

    fn escape(&mut self, text: &mut Vec<u8>) -> Option<()> {
        let next = *self.data.get(self.at + 1)?;
        self.at += 2;
        match next {
            b'\n' => self.fold(),
            b'\r' if self.data.get(self.at) == Some(&b'\n') => {
                self.at += 1;
                self.fold();
            }
            b'n' => text.push(b'\n'),
            b'r' => text.push(b'\r'),
            b't' => text.push(b'\t'),
            other => text.push(other),
        }
        Some(())
    }

    fn fold(&mut self) {
        self.line += 1;
        while let Some(b' ' | b'\t') = self.data.get(self.at) {
            self.at += 1;
        }
    }
}

#[derive(Clone, Copy, PartialEq)]
pub enum Word {
    ClassStart,
    ClassStop,
    ClassReset,
    ClassRestart,
    Start,
    Stop,
    Enable,
    Restart,
    ExecStart,
    Exec,
    Setprop,
    Trigger,
    WaitForProp,
    Wait,
    LoadPersistProps,
    Export,
    Write,
    Copy,
    Rm,
    Rmdir,
    Symlink,
    Chmod,
    Mkdir,
    Inert,
}

const ANY: usize = usize::MAX;

/// A command's word, with the least and the greatest number of its arguments.
fn command_of(word: &[u8]) -> Option<(Word, usize, usize)> {
    Some(match word {
        b"setprop" => (Word::Setprop, 2, 2),
        b"write" => (Word::Write, 2, 2),
        b"start" => (Word::Start, 1, 1),
        b"stop" => (Word::Stop, 1, 1),
        b"trigger" => (Word::Trigger, 1, 1),
        b"mkdir" => (Word::Mkdir, 1, 6),
        b"chmod" => (Word::Chmod, 2, 2),
        b"symlink" => (Word::Symlink, 2, 2),
        b"copy" => (Word::Copy, 2, 2),
        b"rm" => (Word::Rm, 1, 1),
        b"rmdir" => (Word::Rmdir, 1, 1),
        b"export" => (Word::Export, 2, 2),
        b"enable" => (Word::Enable, 1, 1),
        b"restart" => (Word::Restart, 1, 2),
        b"exec" => (Word::Exec, 1, ANY),
        b"exec_start" => (Word::ExecStart, 1, 1),
        b"wait" => (Word::Wait, 1, 2),
        b"wait_for_prop" => (Word::WaitForProp, 2, 2),
        b"class_start" => (Word::ClassStart, 1, 1),
        b"class_stop" => (Word::ClassStop, 1, 1),
        b"class_reset" => (Word::ClassReset, 1, 1),
        b"class_restart" => (Word::ClassRestart, 1, 2),
        b"load_persist_props" => (Word::LoadPersistProps, 0, 0),
        b"mount" | b"umount" | b"restorecon" | b"restorecon_recursive" | b"chown" | b"insmod" | b"ifup"
        | b"sysclktz" | b"setrlimit" | b"swapon_all" | b"verity_update_state" | b"installkey"
        | b"init_user0" | b"mark_post_data" | b"exec_background" | b"loglevel" | b"hostname"
        | b"domainname" | b"bootchart" => (Word::Inert, 0, ANY),
        _ => return None,
    })
}

fn is_inert_option(word: &[u8]) -> bool {
    matches!(
        word,
        b"user" | b"group" | b"capabilities" | b"seclabel" | b"socket" | b"file" | b"setenv" | b"ioprio"
            | b"priority" | b"writepid" | b"task_profiles" | b"namespace" | b"shutdown" | b"interface"
            | b"console" | b"rlimit" | b"oom_score_adjust"
    )
}

/// A command: its word's token, and so many arguments behind it.
pub struct Command {
    pub file: u32,
    pub line: u32,
    pub first: u32,
    pub args: u32,
    pub word: Word,
    /// Whether its arguments are their own expansions.
    pub plain: bool,
}

pub struct Test {
    pub name: Span,
    pub value: Span,
    pub star: bool,
}

pub struct Action {
    pub file: u32,
    pub line: u32,
    pub event: Option<Span>,
    pub tests: (u32, u32),
    pub commands: (u32, u32),
}

pub struct Service {
    pub name: Span,
    pub path: Span,
    pub line: u32,
    /// Tokens.
    pub classes: Option<(u32, u32)>,
    pub disabled: bool,
    pub oneshot: bool,
    pub overrides: bool,
    pub critical: Option<(u64, Option<Span>)>,
    pub period: u64,
    pub timeout: Option<u64>,
    pub onrestart: (u32, u32),
}

pub struct Import {
    pub line: u32,
    pub path: Vec<u8>,
}

/// All that the files say.
pub struct Config {
    pub arena: Arena,
    /// The q forms of the files' paths.
    pub files: Vec<Box<[u8]>>,
    pub commands: Vec<Command>,
    pub tests: Vec<Test>,
    pub actions: Vec<Action>,
    /// In declared order; none in the place of an overridden one, until `close`.
    pub services: Vec<Option<Service>>,
    /// The lines of the diagnostics.
    pub diagnostics: Vec<u8>,
    /// Whether more than the diagnostics is wanted.
    keep: bool,
    by_name: FastMap<Box<[u8]>, u32>,
}

enum Section {
    None,
    Skip,
    On,
    Service(Box<Service>),
}

type Why = &'static str;

impl Config {
    pub fn new(keep: bool) -> Config {
        Config {
            arena: Arena::new(),
            files: Vec::new(),
            commands: Vec::new(),
            tests: Vec::new(),
            actions: Vec::new(),
            services: Vec::new(),
            diagnostics: Vec::new(),
            keep,
            by_name: FastMap::default(),
        }
    }

    pub fn say(&mut self, file: u32, line: u32, why: Why) {
        say(&mut self.diagnostics, &self.files[file as usize], line, why);
    }

    /// Reads a file, and answers its imports.
    pub fn parse(&mut self, file: u32, data: &[u8]) -> Vec<Import> {
        let mut lexer = Lexer { data, at: 0, line: 1 };
        let mut imports = Vec::new();
        let mut found = Vec::new();
        let mut section = Section::None;
        loop {
            let begin = self.arena.count();
            let line = match lexer.next(&mut self.arena) {
                Line::Is(line) => line,
                Line::Dropped(line) => {
                    self.leave(section, &mut found);
                    self.say(file, line, "Cut");
                    break;
                }
                Line::End => {
                    self.leave(section, &mut found);
                    break;
                }
            };
            let outcome = match self.arena.token(begin) {
                b"on" => {
                    self.leave(section, &mut found);
                    let outcome = self.on(file, line, begin);
                    section = if outcome.is_ok() { Section::On } else { Section::Skip };
                    outcome
                }
                b"service" => {
                    self.leave(section, &mut found);
                    let (next, outcome) = match self.service(line, begin) {
                        Ok(it) => (Section::Service(Box::new(it)), Ok(())),
                        Err(why) => (Section::Skip, Err(why)),
                    };
                    section = next;
                    outcome
                }
                b"import" => {
                    self.leave(section, &mut found);
                    section = Section::None;
                    if self.arena.count() == begin + 2 {
                        imports.push(Import { line, path: self.arena.token(begin + 1).to_vec() });
                        self.arena.cut(begin);
                        Ok(())
                    } else {
                        Err("BadImport")
                    }
                }
                _ => match &mut section {
                    Section::None => Err("Orphan"),
                    Section::Skip => {
                        self.arena.cut(begin);
                        Ok(())
                    }
                    Section::On => self.command(file, line, begin, begin),
                    Section::Service(service) => self.option(service, file, line, begin),
                },
            };
            if let Err(why) = outcome {
                self.arena.cut(begin);
                self.say(file, line, why);
            }
        }
        self.declare(file, found);
        imports
    }

    /// Ends a section.
    fn leave(&mut self, section: Section, found: &mut Vec<Service>) {
        match section {
            Section::On => {
                if let Some(action) = self.actions.last_mut() {
                    action.commands.1 = self.commands.len() as u32;
                    if action.commands.0 == action.commands.1 {
                        self.tests.truncate(action.tests.0 as usize);
                        self.actions.pop();
                    }
                }
            }
            Section::Service(service) => found.push(*service),
            Section::None | Section::Skip => {}
        }
    }

    /// Puts a file's services behind those that are declared.
    fn declare(&mut self, file: u32, found: Vec<Service>) {
        for service in found {
            let name = self.arena.get(service.name);
            let at = self.services.len() as u32;
            match self.by_name.get_mut(name) {
                None => {
                    self.by_name.insert(Box::from(name), at);
                }
                Some(_) if !service.overrides => {
                    say(&mut self.diagnostics, &self.files[file as usize], service.line, "ServiceAgain");
                    continue;
                }
                Some(earlier) => {
                    self.services[*earlier as usize] = None;
                    *earlier = at;
                }
            }
            self.services.push(Some(service));
        }
    }

    fn on(&mut self, file: u32, line: u32, begin: usize) -> Result<(), Why> {
        let first_test = self.tests.len();
        let outcome = self.triggers(begin);
        match outcome {
            Ok(event) if self.keep => {
                let (tests, commands) = (self.tests.len() as u32, self.commands.len() as u32);
                let tests = (first_test as u32, tests);
                self.actions.push(Action { file, line, event, tests, commands: (commands, commands) });
                Ok(())
            }
            Ok(_) => {
                self.tests.truncate(first_test);
                self.arena.cut(begin);
                Ok(())
            }
            Err(why) => {
                self.tests.truncate(first_test);
                Err(why)
            }
        }
    }

    fn triggers(&mut self, begin: usize) -> Result<Option<Span>, Why> {
        let first_test = self.tests.len();
        let end = self.arena.count();
        if end == begin + 1 {
            return Err("NoTrigger");
        }
        let mut event = None;
        for at in begin + 1..end {
            let word = self.arena.token(at);
            if (at - begin) % 2 == 0 {
                if word != b"&&" {
                    return Err("BadTrigger");
                }
            } else if let Some(test) = word.strip_prefix(b"property:") {
                let (name, value) = split_at_byte(test, b'=').ok_or("BadTrigger")?;
                if !is_legal_name(name) {
                    return Err("BadTrigger");
                }
                let start = self.arena.ends[at] + 9;
                self.tests.push(Test {
                    name: Span { start, len: name.len() as u32 },
                    value: Span { start: start + name.len() as u32 + 1, len: value.len() as u32 },
                    star: value == b"*",
                });
            } else if word.is_empty() || event.is_some() {
                return Err("BadTrigger");
            } else {
                event = Some(self.arena.span(at));
            }
        }
        self.judge_twice(first_test)?;
        Ok(event)
    }

    fn judge_twice(&self, first_test: usize) -> Result<(), Why> {
        let tests = &self.tests[first_test..];
        if tests.len() < 2 {
            return Ok(());
        }
        let mut names: Vec<_> = tests.iter().map(|it| self.arena.get(it.name)).collect();
        names.sort_unstable();
        if names.windows(2).any(|it| it[0] == it[1]) { Err("TwiceProp") } else { Ok(()) }
    }

    fn service(&mut self, line: u32, begin: usize) -> Result<Service, Why> {
        if self.arena.count() < begin + 3 {
            return Err("BadService");
        }
        let name = self.arena.token(begin + 1);
        if !is_legal_name(name) || name.len() > 246 || self.arena.token(begin + 2).is_empty() {
            return Err("BadService");
        }
        self.arena.cut(begin + 3);
        let commands = self.commands.len() as u32;
        Ok(Service {
            name: self.arena.span(begin + 1),
            path: self.arena.span(begin + 2),
            line,
            classes: None,
            disabled: false,
            oneshot: false,
            overrides: false,
            critical: None,
            period: 5000,
            timeout: None,
            onrestart: (commands, commands),
        })
    }

    /// Keeps the command whose word is this token. The line's first token is `begin`.
    fn command(&mut self, file: u32, line: u32, begin: usize, word_at: usize) -> Result<(), Why> {
        let (word, least, most) = command_of(self.arena.token(word_at)).ok_or("BadWord")?;
        let args = self.arena.count() - word_at - 1;
        if args < least || args > most {
            return Err("BadArity");
        }
        if !self.keep {
            self.arena.cut(begin);
            return Ok(());
        }
        let start = self.arena.ends[word_at + 1] as usize;
        let plain = find_byte(&self.arena.text, start, b'$') == self.arena.text.len()
            && (word_at + 1..=word_at + args).all(|at| self.arena.span(at).len as usize <= MAX_EXPANDED);
        let (first, args) = (word_at as u32, args as u32);
        self.commands.push(Command { file, line, first, args, word, plain });
        Ok(())
    }

    fn option(&mut self, service: &mut Service, file: u32, line: u32, begin: usize) -> Result<(), Why> {
        let args = self.arena.count() - begin - 1;
        let is_kept = match self.arena.token(begin) {
            b"class" => {
                if args == 0 {
                    return Err("BadArity");
                }
                service.classes = Some((begin as u32 + 1, (begin + 1 + args) as u32));
                self.keep
            }
            word @ (b"disabled" | b"oneshot" | b"override") => {
                let mark = match word {
                    b"disabled" => &mut service.disabled,
                    b"oneshot" => &mut service.oneshot,
                    _ => &mut service.overrides,
                };
                if args != 0 {
                    return Err("BadArity");
                }
                *mark = true;
                false
            }
            b"critical" => {
                if args > 2 {
                    return Err("BadArity");
                }
                service.critical = self.critical(begin)?;
                self.keep
            }
            word @ (b"restart_period" | b"timeout_period") => {
                let is_restart = word == b"restart_period";
                if args != 1 {
                    return Err("BadArity");
                }
                let least = u64::from(!is_restart);
                let ms = number(self.arena.token(begin + 1), least).ok_or("BadOption")? * 1000;
                if is_restart {
                    service.period = ms;
                } else {
                    service.timeout = Some(ms);
                }
                false
            }
            b"onrestart" => {
                if args == 0 {
                    return Err("BadArity");
                }
                if matches!(self.arena.token(begin + 1), b"exec" | b"exec_start" | b"wait" | b"wait_for_prop") {
                    return Err("BadOption");
                }
                self.command(file, line, begin, begin + 1)?;
                service.onrestart.1 = self.commands.len() as u32;
                self.keep
            }
            word if is_inert_option(word) => false,
            _ => return Err("BadWord"),
        };
        if !is_kept {
            self.arena.cut(begin);
        }
        Ok(())
    }

    fn critical(&self, begin: usize) -> Result<Option<(u64, Option<Span>)>, Why> {
        let (mut window, mut target) = (None, None);
        for at in begin + 1..self.arena.count() {
            let (key, value) = split_at_byte(self.arena.token(at), b'=').ok_or("BadOption")?;
            match key {
                b"window" if window.is_none() => window = Some(value),
                b"target" if target.is_none() && !value.is_empty() => {
                    let end = self.arena.ends[at + 1];
                    let len = value.len() as u32;
                    target = Some(Span { start: end - len, len });
                }
                _ => return Err("BadOption"),
            }
        }
        let mut window = window.unwrap_or(b"4");
        let inner = window.strip_prefix(b"${").and_then(|it| it.strip_suffix(b"}"));
        if let Some((name, default)) = inner.and_then(split_default) {
            if !is_legal_name(name) {
                return Err("BadOption");
            }
            window = default;
        }
        if window == b"off" {
            return Ok(None);
        }
        Ok(Some((number(window, 0).ok_or("BadOption")? * 60_000, target)))
    }
}

fn number(text: &[u8], least: u64) -> Option<u64> {
    digits(text, 7).filter(|it| (least..=1_000_000).contains(it))
}

fn say(diagnostics: &mut Vec<u8>, file: &[u8], line: u32, why: Why) {
    diagnostics.extend_from_slice(b"diag ");
    diagnostics.extend_from_slice(file);
    diagnostics.push(b' ');
    push_number(diagnostics, u64::from(line));
    diagnostics.push(b' ');
    diagnostics.extend_from_slice(why.as_bytes());
    diagnostics.push(b'\n');
}

pub fn q_of(path: &[u8]) -> Box<[u8]> {
    let mut out = Vec::with_capacity(path.len());
    push_q(&mut out, path);
    out.into_boxed_slice()
}
