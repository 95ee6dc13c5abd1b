//! `plain run ROOT SCRIPT`, `plain check ROOT` and `plain soak N`: what `initsim` writes, by a plain program that nothing is proved of. The benchmarks
//! run it beside the proved one.

mod agenda;
mod import;
mod machine;
mod policy;
mod rc;
mod script;
mod stop;
mod text;
mod trace;
mod tree;

use import::{Files, Loader, ROOT_FILE, read_pairs, read_whole};
use machine::{Given, Machine};
use policy::{Policy, Saved, print_store, read_store};
use rc::Config;
use script::{Act, Client, Script, text_of};
use std::ffi::OsStr;
use std::fs;
use std::io::{self, ErrorKind, Write};
use std::os::unix::ffi::{OsStrExt, OsStringExt};
use stop::Stop;
use text::{push_number, push_q, read_q};
use trace::Trace;

const STORE: &[u8] = b"/data/property/persist.txt";
const MAX_STORE: usize = 32 << 20;

fn main() {
    let words: Vec<Vec<u8>> = std::env::args_os().skip(1).map(OsStringExt::into_vec).collect();
    let status = match called(&words) {
        Ok(()) => 0,
        Err(stop) => {
            eprintln!("initsim: {stop}");
            stop.status()
        }
    };
    std::process::exit(i32::from(status));
}

fn is_path(word: &[u8]) -> bool {
    !word.is_empty() && word[0] != b'-' && std::str::from_utf8(word).is_ok()
}

fn called(words: &[Vec<u8>]) -> Result<(), Stop> {
    let words: Vec<&[u8]> = words.iter().map(Vec::as_slice).collect();
    match words[..] {
        [b"run", root, script] if is_path(root) && is_path(script) => run(root, script),
        [b"check", root] if is_path(root) => check(root),
        [b"soak", count] => soak(count_of(count)?),
        _ => Err(Stop::Usage),
    }
}

fn check(root: &[u8]) -> Result<(), Stop> {
    let mut files = Files::at(root);
    let mut config = Config::new(false);
    let pairs = read_pairs(&mut files, &mut config)?;
    Loader::new(&mut files, &pairs, &mut config).load()?;
    let mut trace = Trace::new()?;
    trace.line(b"initsim 1")?;
    trace.raw(&config.diagnostics).line(b"end")?;
    trace.flush()
}

/// The number of services: from 1 to 1000, without leading zeros.
fn count_of(word: &[u8]) -> Result<u32, Stop> {
    let text = std::str::from_utf8(word).map_err(|_| Stop::Usage)?;
    match text.parse() {
        Ok(count @ 1..=1000) if text.starts_with(|it: char| ('1'..='9').contains(&it)) => Ok(count),
        _ => Err(Stop::Usage),
    }
}

/// Boots a generated tree of so many services, and counts.
fn soak(services: u32) -> Result<(), Stop> {
    let mut root = b"on boot\nclass_start default\non late-init\ntrigger boot\n".to_vec();
    let mut text = b"client c d\nstep 3\n".to_vec();
    for i in 1..=services {
        let _ = write!(root, "service s{i} /bin/s{i}\non property:p{i}=*\nsetprop q{i} ${{p{i}}}\n");
        let _ = write!(text, "@c set p{i} {i}\n@c read p{i}\n");
    }
    let _ = writeln!(text, "step {}", services + 1);
    let Script { area, plans, clients, acts } = script::read(&text)?;
    let domains: Vec<_> = clients.iter().map(|it| text_of(it.domain.of(&text))).collect();
    let policy = (b"/property_contexts".as_slice(), b"* default_prop\n".to_vec());
    let allow = (b"/property_allow".as_slice(), b"allow d default_prop\n".to_vec());
    let mut files = Files::of(vec![(ROOT_FILE, root), policy, allow]);
    let policy = Policy::read(&mut files, &domains)?;
    let mut config = Config::new(true);
    let pairs = read_pairs(&mut files, &mut config)?;
    Loader::new(&mut files, &pairs, &mut config).load()?;
    let mut trace = Trace::new()?;
    trace.quiet = true;
    let machine = Machine::new(Given { config: &config, policy, saved: Saved::new(), area, plans }, trace);
    let readings = clients.iter().map(|_| Vec::new()).collect();
    let keeper = Keeper::at(b"");
    let mut run = Run { machine, keeper, text: &text, readings, first: Vec::new(), second: Vec::new() };
    run.machine.trace.counts.entries = 1;
    run.machine.boot(pairs)?;
    for act in &acts {
        run.take(act)?;
    }
    let used = run.machine.used();
    let trace = &mut run.machine.trace;
    trace.quiet = false;
    let counts = std::mem::take(&mut trace.counts);
    let numbers = [
        (b"soak ".as_slice(), u64::from(services)),
        (b"entries ", counts.entries),
        (b"puts ", counts.puts),
        (b"spawns ", counts.spawns),
        (b"events ", counts.events),
        (b"found ", counts.found),
        (b"used ", used),
    ];
    for (word, number) in numbers {
        trace.raw(word).number(number).end()?;
    }
    trace.line(b"end")?;
    trace.flush()
}

struct Keeper {
    path: Vec<u8>,
    beside: Vec<u8>,
    text: Vec<u8>,
}

impl Keeper {
    fn at(root: &[u8]) -> Keeper {
        let path = [root, STORE].concat();
        let beside = [&path[..], b".new"].concat();
        Keeper { path, beside, text: Vec::new() }
    }

    fn load(&self) -> Result<Saved, Stop> {
        match read_whole(&self.path, MAX_STORE) {
            Ok(text) if text.len() > MAX_STORE => Err(Stop::TooLarge(MAX_STORE as u64 + 1)),
            Ok(text) => read_store(&text),
            Err(error) if matches!(error.kind(), ErrorKind::NotFound | ErrorKind::NotADirectory) => Ok(Saved::new()),
            Err(_) => Err(Stop::Read),
        }
    }

    fn replace(&mut self, saved: &Saved, policy: &Policy) -> io::Result<()> {
        print_store(saved, policy, &mut self.text);
        let beside = OsStr::from_bytes(&self.beside);
        let mut file = fs::File::create(beside)?;
        file.write_all(&self.text)?;
        file.sync_all()?;
        fs::rename(beside, OsStr::from_bytes(&self.path))
    }
}

/// What is run: the machine, its script's text, and what the clients read, which is written at the end.
struct Run<'a> {
    machine: Machine<'a>,
    keeper: Keeper,
    text: &'a [u8],
    readings: Vec<Vec<u8>>,
    first: Vec<u8>,
    second: Vec<u8>,
}

fn run(root: &[u8], script_path: &[u8]) -> Result<(), Stop> {
    let text = read_whole(script_path, script::MAX_BYTES).map_err(|_| Stop::Read)?;
    let Script { area, plans, clients, acts } = script::read(&text)?;
    let domains: Vec<_> = clients.iter().map(|it| text_of(it.domain.of(&text))).collect();
    let mut files = Files::at(root);
    let policy = Policy::read(&mut files, &domains)?;
    let mut config = Config::new(true);
    let pairs = read_pairs(&mut files, &mut config)?;
    Loader::new(&mut files, &pairs, &mut config).load()?;
    let keeper = Keeper::at(root);
    let saved = keeper.load()?;
    let mut trace = Trace::new()?;
    trace.line(b"initsim 1")?;
    trace.raw(&config.diagnostics);
    config.diagnostics = Vec::new();
    let machine = Machine::new(Given { config: &config, policy, saved, area, plans }, trace);
    let readings = clients.iter().map(|_| Vec::new()).collect();
    let mut run = Run { machine, keeper, text: &text, readings, first: Vec::new(), second: Vec::new() };
    run.machine.boot(pairs)?;
    for act in &acts {
        run.take(act)?;
    }
    run.end(&clients)
}

impl Run<'_> {
    fn take(&mut self, act: &Act) -> Result<(), Stop> {
        let text = self.text;
        match *act {
            Act::Step(count) => {
                for _ in 0..count {
                    self.entry(|machine, _, _| machine.next())?;
                }
                Ok(())
            }
            Act::Tick(ms) => self.entry(|machine, _, _| {
                machine.trace.raw(b"tick ").number(ms).end()?;
                machine.tick(ms)
            }),
            Act::Exit(name, status) => self.entry(|machine, first, _| {
                let name = name.of(text);
                machine.trace.raw(b"exit ").raw(name).raw(b" ").number(u64::from(status)).end()?;
                read_q(name, first);
                machine.exit(first, status)
            }),
            Act::File(path, content) => self.entry(|machine, first, second| {
                let (path, content) = (path.of(text), content.of(text));
                machine.trace.raw(b"file ").raw(path).raw(b" ").raw(content).end()?;
                read_q(path, first);
                read_q(content, second);
                machine.file(first, second)
            }),
            Act::Set(who, name, value) => self.entry(|machine, first, second| {
                let (name, value) = (name.of(text), value.of(text));
                machine.trace.raw(b"set ").number(u64::from(who) + 1).raw(b" ").raw(name).raw(b" ").raw(value).end()?;
                read_q(name, first);
                read_q(value, second);
                machine.ask(who, first, second)
            }),
            Act::Read(who, name) => {
                let name = name.of(text);
                let value = self.machine.found(name);
                if self.machine.trace.quiet {
                    self.machine.trace.counts.found += u64::from(value.is_some());
                    return Ok(());
                }
                let out = &mut self.readings[usize::from(who)];
                out.extend_from_slice(if value.is_some() { b" found " } else { b" absent " });
                out.extend_from_slice(name);
                out.push(b' ');
                push_number(out, self.machine.count);
                if let Some(value) = value {
                    out.push(b' ');
                    push_q(out, value);
                }
                out.push(b'\n');
                Ok(())
            }
            Act::Sync(who) => self.reading(who, b" synced "),
            Act::Catch(who) => self.reading(who, b" caught "),
        }
    }

    fn reading(&mut self, who: u8, word: &[u8]) -> Result<(), Stop> {
        let out = &mut self.readings[usize::from(who)];
        out.extend_from_slice(word);
        push_number(out, self.machine.count);
        out.push(b'\n');
        Ok(())
    }

    /// Takes one input. An entry with a stored set waits until the store is kept.
    #[inline]
    fn entry<F>(&mut self, take: F) -> Result<(), Stop>
    where
        F: FnOnce(&mut Machine<'_>, &mut Vec<u8>, &mut Vec<u8>) -> Result<(), Stop>,
    {
        let begin = self.machine.trace.buffer.len();
        self.machine.trace.counts.entries += 1;
        self.machine.trace.hold = self.machine.is_saving();
        take(&mut self.machine, &mut self.first, &mut self.second)?;
        if self.machine.stored {
            self.machine.stored = false;
            if self.keeper.replace(&self.machine.saved, &self.machine.policy).is_err() {
                self.machine.trace.buffer.truncate(begin);
                self.machine.trace.flush()?;
                return Err(Stop::Read);
            }
        }
        self.machine.trace.flush_if_full()
    }

    fn end(mut self, clients: &[Client]) -> Result<(), Stop> {
        let trace = &mut self.machine.trace;
        trace.hold = false;
        for (at, (client, readings)) in clients.iter().zip(&self.readings).enumerate() {
            let (name, domain) = (client.name.of(self.text), client.domain.of(self.text));
            trace.raw(b"client ").number(at as u64 + 1).raw(b" ").raw(name).raw(b" ").raw(domain).end()?;
            trace.raw(readings);
        }
        trace.line(b"end")?;
        trace.flush()
    }
}
