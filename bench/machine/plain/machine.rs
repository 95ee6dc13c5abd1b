//! The machine: properties, events, services, processes, and what a command does. Each output is written as it comes.

use crate::agenda::Agenda;
use crate::import::Pairs;
use crate::policy::{Policy, Saved};
use crate::rc::{Command, Config, Span, Word};
use crate::stop::Stop;
use crate::text::{
    FastMap, FastSet, MAX_VALUE, Unexpanded, digits, expand, is_legal_name, max_value, split_at_byte,
};
use crate::trace::Trace;
use crate::tree::{Change, Tree};
use std::collections::VecDeque;
use std::mem;
use std::rc::Rc;

const FIRST_PID: u32 = 100;
const LAST_PID: u32 = 4_194_304;
const MAX_CLOCK: u64 = 1 << 53;
const EXEC: &[u8] = b"*exec";

/// A property, or a name that an action or a service will ask for: those have the number 0.
struct Prop {
    name: Rc<[u8]>,
    value: Rc<[u8]>,
    number: u64,
    context: u32,
    /// The tests of actions without event: its stars, then its values in order.
    tests: (u32, u32),
    stars: u32,
}

/// A test of an action without event.
struct Tested<'a> {
    value: &'a [u8],
    star: bool,
    action: u32,
}

enum Event {
    Named(u32),
    /// A name that no action has.
    Other(Rc<[u8]>),
    Change(u32, Rc<[u8]>),
    AllProperties,
    Mark,
}

struct Service<'a> {
    name: &'a [u8],
    path: &'a [u8],
    plan: Option<(u64, u8)>,
    /// The property of its state.
    prop: u32,
    critical: Option<(u64, &'a [u8])>,
    period: u64,
    timeout: Option<u64>,
    onrestart: (u32, u32),
    pid: Option<u32>,
    /// Whether the kernel still has the process.
    lives: bool,
    killed: bool,
    disabled: bool,
    declared: bool,
    oneshot: bool,
    reset: bool,
    again: bool,
    restarting: bool,
    wanted: bool,
    started: u64,
    window_begin: u64,
    exits: u32,
}

#[derive(Clone, Copy)]
enum Op {
    Start,
    ClassStart,
    Stop,
    Reset,
    Restart(bool),
    ClassRestart(bool),
    Enable,
    ExecStart,
    Timeout,
}

enum Wait {
    Child(u32),
    Prop(Box<[u8]>, Box<[u8]>),
    File(Box<[u8]>, u64),
}

enum Refusal {
    Down,
    InvalidName,
    UnknownControl,
    Denied(u32),
    NoSuchService,
    InvalidType,
    ValueTooLong(u64),
    NotUtf8,
    ReadOnly(u64),
    AreaFull(u64, u64),
}

enum Answer {
    Accepted,
    Control,
    Refused(Refusal),
}

/// Words beside each other, by their ends.
#[derive(Clone, Copy)]
struct Args<'b> {
    text: &'b [u8],
    ends: &'b [u32],
}

impl<'b> Args<'b> {
    fn len(self) -> usize {
        self.ends.len() - 1
    }

    #[inline]
    fn get(self, at: usize) -> &'b [u8] {
        &self.text[self.ends[at] as usize..self.ends[at + 1] as usize]
    }

    fn last(self) -> &'b [u8] {
        self.get(self.len() - 1)
    }

    fn iter(self) -> impl Iterator<Item = &'b [u8]> {
        (0..self.len()).map(move |at| self.get(at))
    }
}

#[derive(Default)]
struct Scratch {
    text: Vec<u8>,
    ends: Vec<u32>,
}

struct States {
    running: Rc<[u8]>,
    stopping: Rc<[u8]>,
    stopped: Rc<[u8]>,
    restarting: Rc<[u8]>,
}

/// How a command went; its last line, but for `ok`, is written.
#[derive(PartialEq)]
enum Done {
    Ok,
    Said,
}

/// A property area's words: the proper prefixes of the names that are set.
struct Area {
    words: u64,
    used: u64,
    prefixes: FastSet<Box<[u8]>>,
}

pub struct Machine<'a> {
    config: &'a Config,
    pub policy: Policy,
    plans: FastMap<Box<[u8]>, (u64, u8)>,
    pub trace: Trace,
    names: FastMap<Rc<[u8]>, u32>,
    props: Vec<Prop>,
    pub count: u64,
    area: Area,
    /// For each test of the config its property.
    test_props: Vec<u32>,
    tested: Vec<Tested<'a>>,
    event_ids: FastMap<&'a [u8], u32>,
    /// For each event of an action its actions.
    event_actions: Vec<Vec<u32>>,
    event_names: Vec<&'a [u8]>,
    without_event: Vec<u32>,
    events: VecDeque<Event>,
    running: Vec<u32>,
    running_at: usize,
    /// The next command of the first running action.
    command_at: u32,
    services: Vec<Service<'a>>,
    service_ids: FastMap<&'a [u8], u32>,
    class_ids: FastMap<&'a [u8], u32>,
    classes: Vec<Vec<u32>>,
    restarts: Agenda,
    timeouts: Agenda,
    /// The planned ends of the services' processes, and in the last place that of the child of `exec`.
    ends: Agenda,
    killed: Vec<(u32, u32)>,
    exec: Option<(u32, u8)>,
    next_pid: u32,
    clock: u64,
    tree: Tree,
    environment: FastMap<Box<[u8]>, Box<[u8]>>,
    pub saved: Saved,
    saving: bool,
    pub stored: bool,
    changes: bool,
    wait: Option<Wait>,
    over: Option<&'a [u8]>,
    states: States,
    empty: Rc<[u8]>,
    scratch: Scratch,
}

pub struct Given<'a> {
    pub config: &'a Config,
    pub policy: Policy,
    pub saved: Saved,
    pub area: u64,
    pub plans: FastMap<Box<[u8]>, (u64, u8)>,
}

impl<'a> Machine<'a> {
    pub fn new(given: Given<'a>, trace: Trace) -> Machine<'a> {
        let config = given.config;
        let area = Area { words: given.area, used: 16, prefixes: FastSet::default() };
        let states = States {
            running: Rc::from(*b"running"),
            stopping: Rc::from(*b"stopping"),
            stopped: Rc::from(*b"stopped"),
            restarting: Rc::from(*b"restarting"),
        };
        let count = config.services.iter().flatten().count();
        let mut machine = Machine {
            config,
            policy: given.policy,
            plans: given.plans,
            trace,
            names: FastMap::default(),
            props: Vec::new(),
            count: 0,
            area,
            test_props: Vec::with_capacity(config.tests.len()),
            tested: Vec::new(),
            event_ids: FastMap::default(),
            event_actions: Vec::new(),
            event_names: Vec::new(),
            without_event: Vec::new(),
            events: VecDeque::new(),
            running: Vec::new(),
            running_at: 0,
            command_at: 0,
            services: Vec::with_capacity(count),
            service_ids: FastMap::default(),
            class_ids: FastMap::default(),
            classes: Vec::new(),
            restarts: Agenda::new(count),
            timeouts: Agenda::new(count),
            ends: Agenda::new(count + 1),
            killed: Vec::new(),
            exec: None,
            next_pid: FIRST_PID,
            clock: 0,
            tree: Tree::new(),
            environment: FastMap::default(),
            saved: given.saved,
            saving: false,
            stored: false,
            changes: false,
            wait: None,
            over: None,
            states,
            empty: Rc::from([]),
            scratch: Scratch::default(),
        };
        machine.index_services();
        machine.index_actions();
        machine
    }

    fn text(&self, span: Span) -> &'a [u8] {
        self.config.arena.get(span)
    }

    fn index_services(&mut self) {
        let mut state = b"init.svc.".to_vec();
        for def in self.config.services.iter().flatten() {
            let at = self.services.len() as u32;
            let (name, path) = (self.text(def.name), self.text(def.path));
            state.truncate(9);
            state.extend_from_slice(name);
            let prop = self.prop_of(&state);
            self.service_ids.insert(name, at);
            match def.classes {
                None => self.index_class(b"default", at),
                Some((begin, end)) => {
                    for token in begin..end {
                        self.index_class(self.config.arena.token(token as usize), at);
                    }
                }
            }
            let target = |span: Option<Span>| span.map_or(&b"bootloader"[..], |it| self.text(it));
            self.services.push(Service {
                name,
                path,
                plan: self.plans.get(path).copied(),
                prop,
                critical: def.critical.map(|(window, span)| (window, target(span))),
                period: def.period,
                timeout: def.timeout,
                onrestart: def.onrestart,
                pid: None,
                lives: false,
                killed: false,
                disabled: def.disabled,
                declared: def.disabled,
                oneshot: def.oneshot,
                reset: false,
                again: false,
                restarting: false,
                wanted: false,
                started: 0,
                window_begin: 0,
                exits: 0,
            });
        }
    }

    fn index_class(&mut self, class: &'a [u8], at: u32) {
        let id = *self.class_ids.entry(class).or_insert_with(|| {
            self.classes.push(Vec::new());
            self.classes.len() as u32 - 1
        });
        let members = &mut self.classes[id as usize];
        if members.last() != Some(&at) {
            members.push(at);
        }
    }

    fn index_actions(&mut self) {
        let config = self.config;
        for test in &config.tests {
            let prop = self.prop_of(self.text(test.name));
            self.test_props.push(prop);
        }
        let mut order = Vec::new();
        for (at, action) in config.actions.iter().enumerate() {
            let at = at as u32;
            let Some(event) = action.event else {
                self.without_event.push(at);
                order.extend((action.tests.0..action.tests.1).map(|test| (test, at)));
                continue;
            };
            let name = self.text(event);
            let id = *self.event_ids.entry(name).or_insert_with(|| {
                self.event_actions.push(Vec::new());
                self.event_names.push(name);
                self.event_names.len() as u32 - 1
            });
            self.event_actions[id as usize].push(at);
        }
        let value = |test: u32| self.text(config.tests[test as usize].value);
        let star = |test: u32| config.tests[test as usize].star;
        let prop = |test: u32| self.test_props[test as usize];
        let key = |&(test, action): &(u32, u32)| (prop(test), !star(test), value(test), action);
        order.sort_unstable_by(|one, other| key(one).cmp(&key(other)));
        self.tested = order.iter().map(|&(test, action)| Tested { value: value(test), star: star(test), action }).collect();
        for (at, (test, _)) in order.iter().enumerate() {
            let prop = &mut self.props[self.test_props[*test as usize] as usize];
            if prop.tests.1 == 0 {
                prop.tests.0 = at as u32;
                prop.stars = at as u32;
            }
            prop.tests.1 = at as u32 + 1;
            if self.tested[at].star {
                prop.stars = at as u32 + 1;
            }
        }
    }

    /// The place of a legal name, which gets one where it has none.
    fn prop_of(&mut self, name: &[u8]) -> u32 {
        match self.names.get(name) {
            Some(at) => *at,
            None => self.add_prop(name, self.policy.context_of(name)),
        }
    }

    fn add_prop(&mut self, name: &[u8], context: u32) -> u32 {
        let at = self.props.len() as u32;
        let name: Rc<[u8]> = Rc::from(name);
        self.names.insert(Rc::clone(&name), at);
        let value = Rc::clone(&self.empty);
        self.props.push(Prop { name, value, number: 0, context, tests: (0, 0), stars: 0 });
        at
    }

    fn value(&self, name: &[u8]) -> &[u8] {
        self.names.get(name).map_or(&[], |at| &self.props[*at as usize].value)
    }

    /// The words of the area that are in use.
    pub fn used(&self) -> u64 {
        self.area.used
    }

    pub fn found(&self, name: &[u8]) -> Option<&[u8]> {
        let prop = &self.props[*self.names.get(name)? as usize];
        (prop.number > 0).then_some(&prop.value)
    }

    // -- sets

    /// The words that an absent name would add with a value of so many bytes.
    fn need(&self, name: &[u8], len: usize) -> u64 {
        let mut need = if len > MAX_VALUE { 2 + len.div_ceil(8) as u64 } else { 13 };
        let mut prefix = name;
        while !self.has_node(prefix) {
            let dot = prefix.iter().rposition(|it| *it == b'.');
            need += 5 + (prefix.len() - dot.map_or(0, |it| it + 1)).div_ceil(8) as u64;
            match dot {
                Some(dot) => prefix = &prefix[..dot],
                None => break,
            }
        }
        need
    }

    fn has_node(&self, prefix: &[u8]) -> bool {
        self.area.prefixes.contains(prefix) || self.found(prefix).is_some()
    }

    fn add_nodes(&mut self, name: &[u8]) {
        let mut prefix = name;
        while let Some(dot) = prefix.iter().rposition(|it| *it == b'.') {
            prefix = &prefix[..dot];
            if self.has_node(prefix) {
                return;
            }
            self.area.prefixes.insert(Box::from(prefix));
        }
    }

    /// Judges a set of a legal name that isn't a control one. Where it adds the name, the words that this needs follow.
    fn judge(&self, name: &[u8], at: Option<u32>, context: u32, value: &[u8], client: Option<u8>) -> Result<u64, Refusal> {
        let judged = &self.policy.contexts[context as usize];
        if client.is_some_and(|it| judged.clients >> it & 1 == 0) {
            return Err(Refusal::Denied(context));
        }
        if !judged.kind.admits(value) {
            return Err(Refusal::InvalidType);
        }
        if value.len() > max_value(name) {
            return Err(Refusal::ValueTooLong(value.len() as u64));
        }
        if std::str::from_utf8(value).is_err() {
            return Err(Refusal::NotUtf8);
        }
        let number = at.map_or(0, |it| self.props[it as usize].number);
        if number > 0 {
            return if name.starts_with(b"ro.") { Err(Refusal::ReadOnly(number)) } else { Ok(0) };
        }
        let (used, need) = (self.area.used, self.need(name, value.len()));
        if used + need > self.area.words { Err(Refusal::AreaFull(used, need)) } else { Ok(need) }
    }

    fn set(&mut self, name: &[u8], value: &[u8], client: Option<u8>) -> Result<Answer, Stop> {
        if self.over.is_some() {
            return Ok(Answer::Refused(Refusal::Down));
        }
        if name.starts_with(b"ctl.") {
            return self.control(name, value, client);
        }
        let at = self.names.get(name).copied();
        let context = match at {
            Some(at) => self.props[at as usize].context,
            None if !is_legal_name(name) => return Ok(Answer::Refused(Refusal::InvalidName)),
            None => self.policy.context_of(name),
        };
        match self.judge(name, at, context, value, client) {
            Err(refusal) => Ok(Answer::Refused(refusal)),
            Ok(need) => {
                let at = at.unwrap_or_else(|| self.add_prop(name, context));
                self.put(at, Rc::from(value), need)?;
                Ok(Answer::Accepted)
            }
        }
    }

    fn control(&mut self, name: &[u8], value: &[u8], client: Option<u8>) -> Result<Answer, Stop> {
        if !is_legal_name(name) {
            return Ok(Answer::Refused(Refusal::InvalidName));
        }
        let op = match name {
            b"ctl.start" => Op::Start,
            b"ctl.stop" => Op::Stop,
            b"ctl.restart" => Op::Restart(false),
            _ => return Ok(Answer::Refused(Refusal::UnknownControl)),
        };
        let context = self.policy.context_of(name);
        let clients = self.policy.contexts[context as usize].clients;
        if client.is_some_and(|it| clients >> it & 1 == 0) {
            return Ok(Answer::Refused(Refusal::Denied(context)));
        }
        let Some(at) = self.service_ids.get(value).copied() else {
            return Ok(Answer::Refused(Refusal::NoSuchService));
        };
        self.operate(at, op)?;
        Ok(Answer::Control)
    }

    fn put(&mut self, at: u32, value: Rc<[u8]>, need: u64) -> Result<(), Stop> {
        if need > 0 {
            let name = Rc::clone(&self.props[at as usize].name);
            self.add_nodes(&name);
            self.area.used += need;
        }
        self.count += 1;
        self.trace.counts.puts += 1;
        let prop = &mut self.props[at as usize];
        prop.number = self.count;
        self.trace.raw(b" put ").number(self.count).raw(b" ").raw(&prop.name).raw(b" ").q(&value).end()?;
        if self.changes {
            self.events.push_back(Event::Change(at, Rc::clone(&value)));
        }
        if self.saving && prop.name.starts_with(b"persist.") {
            self.saved.insert(Rc::clone(&prop.name), Rc::clone(&value));
            self.stored = true;
            self.trace.raw(b" stored ").raw(&prop.name).end()?;
        }
        if let Some(Wait::Prop(name, wanted)) = &self.wait
            && **name == *prop.name
            && **wanted == *value
        {
            self.wait = None;
            self.trace.line(b" released")?;
        }
        self.props[at as usize].value = value;
        Ok(())
    }

    fn say_refusal(&mut self, refusal: &Refusal) -> Result<(), Stop> {
        let trace = &mut self.trace;
        match refusal {
            Refusal::Down => trace.raw(b"Down ").q(self.over.unwrap_or(b"")),
            Refusal::InvalidName => trace.raw(b"InvalidName"),
            Refusal::UnknownControl => trace.raw(b"UnknownControl"),
            Refusal::Denied(context) => trace.raw(b"Denied ").q(&self.policy.contexts[*context as usize].label),
            Refusal::NoSuchService => trace.raw(b"NoSuchService"),
            Refusal::InvalidType => trace.raw(b"InvalidType"),
            Refusal::ValueTooLong(len) => trace.raw(b"ValueTooLong ").number(*len),
            Refusal::NotUtf8 => trace.raw(b"NotUtf8"),
            Refusal::ReadOnly(number) => trace.raw(b"ReadOnly ").number(*number),
            Refusal::AreaFull(used, need) => trace.raw(b"AreaFull ").number(*used).raw(b" ").number(*need),
        };
        trace.end()
    }

    fn unset(&mut self, name: &[u8], refusal: &Refusal) -> Result<(), Stop> {
        self.trace.raw(b" unset ").q(name).raw(b" ");
        self.say_refusal(refusal)
    }

    fn state(&mut self, at: u32, which: fn(&States) -> &Rc<[u8]>) -> Result<(), Stop> {
        let prop = self.services[at as usize].prop;
        let value = Rc::clone(which(&self.states));
        let Prop { name, context, .. } = &self.props[prop as usize];
        match self.judge(name, Some(prop), *context, &value, None) {
            Ok(need) => self.put(prop, value, need),
            Err(refusal) => {
                let name = Rc::clone(name);
                self.unset(&name, &refusal)
            }
        }
    }

    // -- services

    fn marks(&mut self, at: u32) -> &mut Service<'a> {
        &mut self.services[at as usize]
    }

    fn end_restart(&mut self, at: u32) {
        if mem::take(&mut self.marks(at).restarting) {
            self.restarts.forget(at);
        }
    }

    /// False where this op's own spawn found no pid.
    fn operate(&mut self, at: u32, op: Op) -> Result<bool, Stop> {
        let marks = &mut self.services[at as usize];
        let has = marks.pid.is_some();
        match op {
            Op::Start => {
                if !has {
                    marks.again = false;
                } else if marks.oneshot && (marks.disabled || marks.reset) {
                    marks.again = true;
                }
                (marks.disabled, marks.reset, marks.wanted) = (false, false, false);
                self.end_restart(at);
                return if has { Ok(true) } else { self.spawn(at) };
            }
            Op::ClassStart if marks.disabled => marks.wanted = true,
            Op::ClassStart => return self.operate(at, Op::Start),
            Op::Stop | Op::Reset => {
                (marks.wanted, marks.again) = (false, false);
                if matches!(op, Op::Stop) || marks.declared {
                    marks.disabled = true;
                } else {
                    marks.reset = true;
                }
                self.end_restart(at);
                if has {
                    self.kill(at)?;
                } else {
                    self.state(at, |it| &it.stopped)?;
                }
            }
            Op::Restart(_) if has => {
                (marks.disabled, marks.reset, marks.wanted, marks.again) = (false, false, false, true);
                self.kill(at)?;
            }
            Op::Restart(only_running) if marks.restarting || only_running => {}
            Op::ClassRestart(only_enabled) if only_enabled && marks.disabled => {}
            Op::ClassRestart(_) => return self.operate(at, Op::Restart(false)),
            Op::Enable => {
                (marks.disabled, marks.declared) = (false, false);
                if marks.wanted {
                    return self.operate(at, Op::Start);
                }
            }
            Op::ExecStart => {
                marks.oneshot = true;
                return self.operate(at, Op::Start);
            }
            Op::Restart(_) => return self.operate(at, Op::Start),
            Op::Timeout if has => self.kill(at)?,
            Op::Timeout => {}
        }
        Ok(true)
    }

    fn kill(&mut self, at: u32) -> Result<(), Stop> {
        let marks = &mut self.services[at as usize];
        let (Some(pid), false) = (marks.pid, marks.killed) else {
            return Ok(());
        };
        marks.killed = true;
        if marks.lives {
            self.killed.push((pid, at));
        }
        self.trace.raw(b" kill ").number(u64::from(pid)).raw(b" ").raw(marks.name).end()?;
        self.state(at, |it| &it.stopping)
    }

    fn take_pid(&mut self, name: &[u8], path: &[u8]) -> Result<Option<u32>, Stop> {
        if self.next_pid > LAST_PID {
            self.trace.raw(b" no-pid ").raw(name).end()?;
            return Ok(None);
        }
        let pid = self.next_pid;
        self.next_pid += 1;
        self.trace.counts.spawns += 1;
        self.trace.raw(b" spawn ").number(u64::from(pid)).raw(b" ").raw(name).raw(b" ").q(path).end()?;
        Ok(Some(pid))
    }

    fn spawn(&mut self, at: u32) -> Result<bool, Stop> {
        let Service { name, path, plan, timeout, .. } = self.services[at as usize];
        let Some(pid) = self.take_pid(name, path)? else {
            self.state(at, |it| &it.stopped)?;
            return Ok(false);
        };
        let clock = self.clock;
        let marks = self.marks(at);
        (marks.pid, marks.lives, marks.killed, marks.started) = (Some(pid), true, false, clock);
        if let Some((after, _)) = plan {
            self.ends.set(at, clock + after);
        }
        if let Some(timeout) = timeout {
            self.timeouts.set(at, clock + timeout);
        }
        self.state(at, |it| &it.running)?;
        Ok(true)
    }

    /// Reaps a service's process, which has left the kernel. The machine may be over then.
    fn reap(&mut self, at: u32, pid: u32, status: Option<u8>) -> Result<(), Stop> {
        let name = self.services[at as usize].name;
        self.say_reap(pid, name, status)?;
        let marks = self.marks(at);
        (marks.pid, marks.killed) = (None, false);
        if marks.oneshot && !marks.again && !marks.reset {
            marks.disabled = true;
        }
        marks.again = false;
        let stays = marks.disabled || marks.reset;
        marks.restarting |= !stays;
        self.timeouts.forget(at);
        if stays {
            self.state(at, |it| &it.stopped)?;
        } else {
            self.exited(at)?;
        }
        self.end_child(pid)
    }

    fn say_reap(&mut self, pid: u32, name: &[u8], status: Option<u8>) -> Result<(), Stop> {
        let line = self.trace.raw(b" reap ").number(u64::from(pid)).raw(b" ").raw(name);
        match status {
            Some(status) => line.raw(b" exit ").number(u64::from(status)).end(),
            None => line.line(b" killed"),
        }
    }

    fn end_child(&mut self, pid: u32) -> Result<(), Stop> {
        if self.over.is_none() && matches!(self.wait, Some(Wait::Child(child)) if child == pid) {
            self.wait = None;
            self.trace.line(b" released")?;
        }
        Ok(())
    }

    fn exited(&mut self, at: u32) -> Result<(), Stop> {
        let clock = self.clock;
        if let Some((window, target)) = self.services[at as usize].critical {
            let booted = matches!(self.value(b"sys.boot_completed"), b"1" | b"true");
            let marks = self.marks(at);
            if !booted || clock < marks.window_begin + window {
                marks.exits += 1;
            } else {
                (marks.window_begin, marks.exits) = (clock, 1);
            }
            if marks.exits > 4 {
                self.over = Some(target);
                return self.trace.raw(b" reboot ").q(target).end();
            }
        }
        let Service { started, period, onrestart, .. } = self.services[at as usize];
        self.restarts.set(at, started + period);
        self.state(at, |it| &it.restarting)?;
        for command in onrestart.0..onrestart.1 {
            self.command(&self.config.commands[command as usize])?;
        }
        Ok(())
    }

    // -- events

    fn named(&self, name: &[u8]) -> Event {
        match self.event_ids.get(name) {
            Some(id) => Event::Named(*id),
            None => Event::Other(Rc::from(name)),
        }
    }

    fn holds(&self, test: u32) -> bool {
        let prop = &self.props[self.test_props[test as usize] as usize];
        let test = &self.config.tests[test as usize];
        if test.star { !prop.value.is_empty() } else { *prop.value == *self.text(test.value) }
    }

    /// Whether the tests of an action hold now, but for that of the changed property.
    fn all_hold(&self, action: u32, changed: Option<u32>) -> bool {
        let (begin, end) = self.config.actions[action as usize].tests;
        (begin..end).all(|it| Some(self.test_props[it as usize]) == changed || self.holds(it))
    }

    /// Appends the actions that test the changed property, by the order of actions: its stars, and those of the value.
    fn matching(&self, changed: u32, value: &[u8], found: &mut Vec<u32>) {
        let Prop { tests: (begin, end), stars, .. } = self.props[changed as usize];
        let mut stars_left = &self.tested[begin as usize..stars as usize];
        let mut values = &self.tested[stars as usize..end as usize];
        let first = values.partition_point(|it| it.value < value);
        values = &values[first..];
        loop {
            let star = stars_left.first().map(|it| it.action);
            let equal = values.first().filter(|it| it.value == value).map(|it| it.action);
            let action = match (star, equal) {
                (None, None) => return,
                (Some(star), Some(equal)) => star.min(equal),
                (Some(one), None) | (None, Some(one)) => one,
            };
            if star == Some(action) {
                stars_left = &stars_left[1..];
            } else {
                values = &values[1..];
            }
            if self.all_hold(action, Some(changed)) {
                found.push(action);
            }
        }
    }

    pub fn boot(&mut self, pairs: Pairs) -> Result<(), Stop> {
        self.trace.line(b"boot")?;
        let mut pairs: Vec<_> = pairs.into_iter().collect();
        pairs.sort_unstable();
        for (name, value) in &pairs {
            if let Answer::Refused(refusal) = self.set(name, value, None)? {
                self.unset(name, &refusal)?;
            }
        }
        let is_charger = self.value(b"ro.bootmode") == b"charger";
        let last: &[u8] = if is_charger { b"charger" } else { b"late-init" };
        for name in [&b"early-init"[..], b"init", last] {
            let event = self.named(name);
            self.events.push_back(event);
        }
        self.events.push_back(Event::Mark);
        Ok(())
    }

    pub fn next(&mut self) -> Result<(), Stop> {
        self.trace.line(b"next")?;
        if self.over.is_some() {
            return self.trace.line(b" down");
        }
        if self.wait.is_some() {
            return self.trace.line(b" blocked");
        }
        while self.running_at == self.running.len() {
            match self.events.pop_front() {
                Some(event) => self.take_event(event)?,
                None => return self.trace.line(b" idle"),
            }
        }
        let action = &self.config.actions[self.running[self.running_at] as usize];
        let command = &self.config.commands[self.command_at as usize];
        self.command_at += 1;
        if self.command_at == action.commands.1 {
            self.running_at += 1;
            self.begin_action();
        }
        self.command(command)
    }

    fn begin_action(&mut self) {
        if let Some(action) = self.running.get(self.running_at) {
            self.command_at = self.config.actions[*action as usize].commands.0;
        }
    }

    fn take_event(&mut self, event: Event) -> Result<(), Stop> {
        let mut found = mem::take(&mut self.running);
        found.clear();
        self.trace.counts.events += u64::from(!matches!(event, Event::Mark));
        match event {
            Event::Mark => self.events.push_back(Event::AllProperties),
            Event::Named(id) => {
                self.trace.raw(b" event ").q(self.event_names[id as usize]).end()?;
                let candidates = &self.event_actions[id as usize];
                found.extend(candidates.iter().filter(|it| self.all_hold(**it, None)));
            }
            Event::Other(name) => self.trace.raw(b" event ").q(&name).end()?,
            Event::Change(prop, value) => {
                self.trace.raw(b" change ").raw(&self.props[prop as usize].name).raw(b" ").q(&value).end()?;
                self.matching(prop, &value, &mut found);
            }
            Event::AllProperties => {
                self.trace.line(b" all-properties")?;
                self.changes = true;
                found.extend(self.without_event.iter().filter(|it| self.all_hold(**it, None)));
            }
        }
        for action in &found {
            let action = &self.config.actions[*action as usize];
            let file = &self.config.files[action.file as usize];
            self.trace.raw(b" action ").raw(file).raw(b" ").number(u64::from(action.line)).end()?;
        }
        self.running = found;
        self.running_at = 0;
        self.begin_action();
        Ok(())
    }

    // -- commands

    fn expand_all(&self, written: Args<'_>, scratch: &mut Scratch) -> Result<(), Unexpanded> {
        scratch.text.clear();
        scratch.ends.clear();
        scratch.ends.push(0);
        for text in written.iter() {
            expand(text, &mut scratch.text, |name, out| out.extend_from_slice(self.value(name)))?;
            scratch.ends.push(scratch.text.len() as u32);
        }
        Ok(())
    }

    fn command(&mut self, command: &'a Command) -> Result<(), Stop> {
        let arena = &self.config.arena;
        let first = command.first as usize;
        let written = Args { text: &arena.text, ends: &arena.ends[first + 1..=first + 1 + command.args as usize] };
        let file = &self.config.files[command.file as usize];
        if command.plain {
            say_command(&mut self.trace, file, command.line, arena.token(first), written)?;
            return self.perform_and_say(command.word, written);
        }
        let mut scratch = mem::take(&mut self.scratch);
        let outcome = match self.expand_all(written, &mut scratch) {
            Ok(()) => {
                let args = Args { text: &scratch.text, ends: &scratch.ends };
                say_command(&mut self.trace, file, command.line, arena.token(first), args)?;
                self.perform_and_say(command.word, args)
            }
            Err(why) => {
                say_command(&mut self.trace, file, command.line, arena.token(first), written)?;
                match why {
                    Unexpanded::TooLong => self.trace.line(b" failed TooLong"),
                    Unexpanded::Absent(name) => self.trace.raw(b" failed Absent ").q(&name).end(),
                    Unexpanded::BadForm(place) => self.trace.raw(b" failed BadForm ").number(place as u64).end(),
                }
            }
        };
        self.scratch = scratch;
        outcome
    }

    fn perform_and_say(&mut self, word: Word, args: Args<'_>) -> Result<(), Stop> {
        match self.perform(word, args)? {
            Done::Ok => self.trace.line(b" ok"),
            Done::Said => Ok(()),
        }
    }

    fn fail(&mut self, cause: &[u8]) -> Result<Done, Stop> {
        self.trace.raw(b" failed ").line(cause)?;
        Ok(Done::Said)
    }

    fn fail_at(&mut self, cause: &[u8], name: &[u8]) -> Result<Done, Stop> {
        self.trace.raw(b" failed ").raw(cause).raw(b" ").q(name).end()?;
        Ok(Done::Said)
    }

    fn perform(&mut self, word: Word, args: Args<'_>) -> Result<Done, Stop> {
        match word {
            Word::Inert => {
                self.trace.line(b" noted")?;
                Ok(Done::Ok)
            }
            Word::ClassStart => self.class(args.get(0), Op::ClassStart),
            Word::ClassStop => self.class(args.get(0), Op::Stop),
            Word::ClassReset => self.class(args.get(0), Op::Reset),
            Word::ClassRestart => match has_option(args, b"--only-enabled") {
                Some(only_enabled) => self.class(args.last(), Op::ClassRestart(only_enabled)),
                None => self.fail(b"BadArgument 1"),
            },
            Word::Start => self.service(args.get(0), Op::Start),
            Word::Stop => self.service(args.get(0), Op::Stop),
            Word::Enable => self.service(args.get(0), Op::Enable),
            Word::Restart => match has_option(args, b"--only-if-running") {
                Some(only_running) => self.service(args.last(), Op::Restart(only_running)),
                None => self.fail(b"BadArgument 1"),
            },
            Word::ExecStart => self.exec_start(args.get(0)),
            Word::Exec => self.exec(args),
            Word::Setprop => match self.set(args.get(0), args.get(1), None)? {
                Answer::Refused(refusal) => {
                    self.trace.raw(b" failed Set ");
                    self.say_refusal(&refusal)?;
                    Ok(Done::Said)
                }
                Answer::Accepted | Answer::Control => Ok(Done::Ok),
            },
            Word::Trigger if args.get(0).is_empty() => self.fail(b"BadArgument 1"),
            Word::Trigger => {
                let event = self.named(args.get(0));
                self.events.push_back(event);
                Ok(Done::Ok)
            }
            Word::WaitForProp => self.wait_for_prop(args.get(0), args.get(1)),
            Word::Wait => self.wait_for_file(args),
            Word::LoadPersistProps => self.load_persist_props(),
            Word::Export => {
                self.trace.raw(b" env ").q(args.get(0)).raw(b" ").q(args.get(1)).end()?;
                self.environment.insert(Box::from(args.get(0)), Box::from(args.get(1)));
                Ok(Done::Ok)
            }
            Word::Write => self.change(args.get(0), Change::Write(args.get(1))),
            Word::Copy => self.change(args.get(1), Change::Copy(args.get(0))),
            Word::Rm => self.change(args.get(0), Change::Rm),
            Word::Rmdir => self.change(args.get(0), Change::Rmdir),
            Word::Symlink => self.change(args.get(1), Change::Symlink(args.get(0))),
            Word::Chmod => match mode_of(args.get(0)) {
                Some(mode) => self.change(args.get(1), Change::Chmod(mode)),
                None => self.fail(b"BadArgument 1"),
            },
            Word::Mkdir => match if args.len() > 1 { mode_of(args.get(1)) } else { Some(0o755) } {
                Some(mode) => self.change(args.get(0), Change::Mkdir(mode)),
                None => self.fail(b"BadArgument 2"),
            },
        }
    }

    fn class(&mut self, class: &[u8], op: Op) -> Result<Done, Stop> {
        if let Some(id) = self.class_ids.get(class) {
            let id = *id as usize;
            let members = mem::take(&mut self.classes[id]);
            for at in &members {
                self.operate(*at, op)?;
            }
            self.classes[id] = members;
        }
        Ok(Done::Ok)
    }

    fn service(&mut self, name: &[u8], op: Op) -> Result<Done, Stop> {
        let Some(at) = self.service_ids.get(name).copied() else {
            return self.fail_at(b"NoSuchService", name);
        };
        if self.operate(at, op)? { Ok(Done::Ok) } else { self.fail(b"NoPid") }
    }

    fn exec_start(&mut self, name: &[u8]) -> Result<Done, Stop> {
        let Some(at) = self.service_ids.get(name).copied() else {
            return self.fail_at(b"NoSuchService", name);
        };
        if self.marks(at).pid.is_some() {
            return self.fail_at(b"AlreadyRunning", name);
        }
        self.operate(at, Op::ExecStart)?;
        match self.marks(at).pid {
            Some(pid) => self.wait_for_child(pid),
            None => self.fail(b"NoPid"),
        }
    }

    fn wait_for_child(&mut self, pid: u32) -> Result<Done, Stop> {
        self.wait = Some(Wait::Child(pid));
        self.trace.raw(b" wait child ").number(u64::from(pid)).end()?;
        Ok(Done::Said)
    }

    fn exec(&mut self, args: Args<'_>) -> Result<Done, Stop> {
        let behind = args.iter().position(|it| it == b"--").map_or(0, |it| it + 1);
        if behind == args.len() {
            return self.fail(b"BadArgument 1");
        }
        let path = args.get(behind);
        let Some(pid) = self.take_pid(EXEC, path)? else {
            return self.fail(b"NoPid");
        };
        let plan = self.plans.get(path).copied();
        self.exec = Some((pid, plan.map_or(0, |(_, status)| status)));
        if let Some((after, _)) = plan {
            self.ends.set(self.services.len() as u32, self.clock + after);
        }
        self.wait_for_child(pid)
    }

    fn wait_for_prop(&mut self, name: &[u8], value: &[u8]) -> Result<Done, Stop> {
        if !is_legal_name(name) {
            return self.fail(b"BadArgument 1");
        }
        if self.value(name) == value {
            return Ok(Done::Ok);
        }
        self.wait = Some(Wait::Prop(Box::from(name), Box::from(value)));
        self.trace.raw(b" wait prop ").raw(name).raw(b" ").q(value).end()?;
        Ok(Done::Said)
    }

    fn wait_for_file(&mut self, args: Args<'_>) -> Result<Done, Stop> {
        let ms = if args.len() > 1 { millis_of(args.get(1)) } else { Some(5000) };
        let Some(ms) = ms else {
            return self.fail(b"BadArgument 2");
        };
        let path = args.get(0);
        if self.tree.has(path) {
            return Ok(Done::Ok);
        }
        let until = self.clock + ms;
        self.wait = Some(Wait::File(Box::from(path), until));
        self.trace.raw(b" wait file ").q(path).raw(b" ").number(until).end()?;
        self.end_file_wait()?;
        Ok(Done::Said)
    }

    /// Ends a wait for a file where it is there or late.
    fn end_file_wait(&mut self) -> Result<(), Stop> {
        let Some(Wait::File(path, until)) = &self.wait else {
            return Ok(());
        };
        let line: &[u8] = if self.tree.has(path) {
            b" released"
        } else if self.clock >= *until {
            b" timeout"
        } else {
            return Ok(());
        };
        self.wait = None;
        self.trace.line(line)
    }

    fn load_persist_props(&mut self) -> Result<Done, Stop> {
        if self.saving {
            return Ok(Done::Ok);
        }
        let mut saved = mem::take(&mut self.saved);
        let mut refused = Vec::new();
        for (name, value) in &saved {
            if let Answer::Refused(refusal) = self.set(name, value, None)? {
                self.unset(name, &refusal)?;
                refused.push(Rc::clone(name));
            }
        }
        for name in refused {
            saved.remove(&name);
        }
        self.saved = saved;
        self.saving = true;
        Ok(Done::Ok)
    }

    fn change(&mut self, path: &[u8], change: Change<'_>) -> Result<Done, Stop> {
        match self.tree.change(path, change) {
            Ok(()) => {
                self.trace.raw(b" tree ").q(path).end()?;
                Ok(Done::Ok)
            }
            Err(why) => {
                self.trace.raw(b" failed Tree ").line(why)?;
                Ok(Done::Said)
            }
        }
    }

    // -- the other inputs. Their heads are written.

    pub fn exit(&mut self, name: &[u8], status: u8) -> Result<(), Stop> {
        if self.over.is_some() {
            return self.trace.line(b" down");
        }
        if name == EXEC {
            if let Some((pid, _)) = self.exec.take() {
                self.ends.forget(self.services.len() as u32);
                self.say_reap(pid, EXEC, Some(status))?;
                return self.end_child(pid);
            }
        } else if let Some(&at) = self.service_ids.get(name)
            && let Some(pid) = self.marks(at).pid
        {
            self.marks(at).lives = false;
            self.ends.forget(at);
            self.reap(at, pid, Some(status))?;
            return self.end_input();
        }
        self.trace.line(b" no-process")
    }

    fn end_input(&mut self) -> Result<(), Stop> {
        if self.over.is_none() && self.wait.is_some() { self.end_file_wait() } else { Ok(()) }
    }

    pub fn file(&mut self, path: &[u8], content: &[u8]) -> Result<(), Stop> {
        if self.over.is_some() {
            return self.trace.line(b" down");
        }
        self.change(path, Change::Write(content))?;
        self.end_input()
    }

    pub fn tick(&mut self, ms: u64) -> Result<(), Stop> {
        if self.over.is_some() {
            return self.trace.line(b" down");
        }
        if self.clock + ms > MAX_CLOCK {
            return self.trace.line(b" too-far");
        }
        self.clock += ms;
        self.end_processes()?;
        if self.over.is_some() {
            return Ok(());
        }
        let mut due = Vec::new();
        while let Some(at) = self.timeouts.pop_due(self.clock) {
            due.push(at);
        }
        due.sort_unstable();
        for at in due.drain(..) {
            self.operate(at, Op::Timeout)?;
        }
        while let Some(at) = self.restarts.pop_due(self.clock) {
            due.push(at);
        }
        due.sort_unstable();
        for at in due {
            self.operate(at, Op::Start)?;
        }
        self.end_input()
    }

    /// Takes the killed and the due from the kernel, and reaps them.
    fn end_processes(&mut self) -> Result<(), Stop> {
        let mut gone = Vec::new();
        for (pid, at) in mem::take(&mut self.killed) {
            let marks = &mut self.services[at as usize];
            if marks.lives && marks.pid == Some(pid) {
                marks.lives = false;
                self.ends.forget(at);
                gone.push((pid, at, None));
            }
        }
        while let Some(at) = self.ends.pop_due(self.clock) {
            if let Some(marks) = self.services.get_mut(at as usize) {
                marks.lives = false;
                gone.extend(marks.pid.map(|pid| (pid, at, marks.plan.map(|(_, status)| status))));
            } else {
                gone.extend(self.exec.take().map(|(pid, status)| (pid, at, Some(status))));
            }
        }
        gone.sort_unstable();
        for (pid, at, status) in gone {
            if (at as usize) < self.services.len() {
                self.reap(at, pid, status)?;
            } else {
                self.say_reap(pid, EXEC, status)?;
                self.end_child(pid)?;
            }
            if self.over.is_some() {
                break;
            }
        }
        Ok(())
    }

    pub fn ask(&mut self, who: u8, name: &[u8], value: &[u8]) -> Result<(), Stop> {
        match self.set(name, value, Some(who))? {
            Answer::Accepted => self.trace.raw(b" accepted ").number(self.count).end(),
            Answer::Control => self.trace.raw(b" control ").number(self.count).end(),
            Answer::Refused(refusal) => {
                self.trace.raw(b" refused ");
                self.say_refusal(&refusal)
            }
        }
    }

    /// Whether a set may be stored.
    pub fn is_saving(&self) -> bool {
        self.saving
    }
}

fn say_command(trace: &mut Trace, file: &[u8], line: u32, word: &[u8], args: Args<'_>) -> Result<(), Stop> {
    trace.raw(b" command ").raw(file).raw(b" ").number(u64::from(line)).raw(b" ").raw(word);
    for text in args.iter() {
        trace.raw(b" ").q(text);
    }
    trace.end()
}

/// Whether the option stands before a name; none where another word does.
fn has_option(args: Args<'_>, option: &[u8]) -> Option<bool> {
    match args.len() {
        1 => Some(false),
        _ => (args.get(0) == option).then_some(true),
    }
}

fn mode_of(text: &[u8]) -> Option<u16> {
    let fits = (1..=6).contains(&text.len()) && text.iter().all(|it| (b'0'..=b'7').contains(it));
    let mode = text.iter().fold(0u32, |sum, digit| sum << 3 | u32::from(digit & 7));
    (fits && mode <= 0o7777).then_some(mode as u16)
}

fn millis_of(text: &[u8]) -> Option<u64> {
    let (whole, fraction) = match split_at_byte(text, b'.') {
        Some((whole, fraction)) => (whole, fraction),
        None => (text, &b"0"[..]),
    };
    digits(fraction, 9)?;
    let place = |at: usize, unit: u64| fraction.get(at).map_or(0, |digit| u64::from(digit - b'0') * unit);
    let ms = digits(whole, 7)? * 1000 + place(0, 100) + place(1, 10) + place(2, 1);
    (ms <= 1_000_000_000).then_some(ms)
}
