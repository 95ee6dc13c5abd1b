//! A plain Rust reader of the trace format, strict as the proved one: `plain SHAPE BYTES N`.
use std::env;
use std::process::exit;

type Text = Vec<u8>;

#[derive(Debug)]
enum Refusal {
    Down(Text),
    InvalidName,
    UnknownControl,
    Denied(Text),
    NoSuchService,
    InvalidType,
    ValueTooLong(u64),
    NotUtf8,
    ReadOnly(u64),
    AreaFull(u64, u64),
    NumberSpent(u64),
}

#[derive(Debug)]
enum Output {
    Event(Text),
    Change(Text, Text),
    AllProperties,
    Action(Text, u32),
    Command(Text, u32, usize, Vec<Text>),
    Put(u64, Text, Text),
    Stored(Text),
    Unset(Text, Refusal),
    Spawn(u32, Text, Text),
    NoPid(Text),
    Kill(u32, Text),
    Env(Text, Text),
    Tree(Text),
    Noted,
    Ok,
    Released,
    Timeout,
    Blocked,
    Idle,
    Down,
    TooFar,
    NoProcess,
    Reboot(Text),
    Accepted(u64),
    Control(u64),
    Refused(Refusal),
}

#[derive(Debug)]
enum Input {
    Boot,
    Next,
    Tick(u64),
    Exit(Text, u8),
    File(Text, Text),
    Set(u32, Text, Text),
}

#[derive(Debug)]
struct Entry {
    input: Input,
    outputs: Vec<Output>,
}

const WORDS: [&[u8]; 42] = [
    b"class_start", b"class_stop", b"class_reset", b"class_restart", b"start", b"stop", b"enable", b"restart",
    b"exec_start", b"exec", b"setprop", b"trigger", b"wait_for_prop", b"wait", b"load_persist_props", b"export",
    b"write", b"copy", b"rm", b"rmdir", b"symlink", b"chmod", b"mkdir", b"mount", b"umount", b"restorecon",
    b"restorecon_recursive", b"chown", b"insmod", b"ifup", b"sysclktz", b"setrlimit", b"swapon_all",
    b"verity_update_state", b"installkey", b"init_user0", b"mark_post_data", b"exec_background", b"loglevel",
    b"hostname", b"domainname", b"bootchart",
];

fn is_plain(byte: u8) -> bool {
    (0x21..=0x7e).contains(&byte) && byte != b'%'
}

fn digit(byte: u8) -> Option<u8> {
    match byte {
        b'0'..=b'9' => Some(byte - b'0'),
        b'A'..=b'F' => Some(byte - b'A' + 10),
        _ => None,
    }
}

fn text(word: Option<&[u8]>) -> Option<Text> {
    let word = word?;
    if word == b"%" {
        return Some(Vec::new());
    }
    if word.is_empty() {
        return None;
    }
    let mut bytes = Vec::with_capacity(word.len());
    let mut at = 0;
    while at < word.len() {
        if is_plain(word[at]) {
            bytes.push(word[at]);
            at += 1;
        } else {
            if word[at] != b'%' || at + 2 >= word.len() {
                return None;
            }
            let byte = 16 * digit(word[at + 1])? + digit(word[at + 2])?;
            if is_plain(byte) {
                return None;
            }
            bytes.push(byte);
            at += 3;
        }
    }
    Some(bytes)
}

fn number(word: Option<&[u8]>, most: u64) -> Option<u64> {
    let word = word?;
    if word.is_empty() || (word[0] == b'0' && word.len() > 1) || !word.iter().all(u8::is_ascii_digit) {
        return None;
    }
    let mut number: u64 = 0;
    for byte in word {
        number = number.checked_mul(10)?.checked_add(u64::from(byte - b'0'))?;
        if number > most {
            return None;
        }
    }
    Some(number)
}

fn large(word: Option<&[u8]>) -> Option<u64> {
    number(word, u64::MAX)
}

fn small(word: Option<&[u8]>) -> Option<u32> {
    number(word, u64::from(u32::MAX)).map(|number| number as u32)
}

fn refusal<'a>(fields: &mut impl Iterator<Item = &'a [u8]>) -> Option<Refusal> {
    Some(match fields.next()? {
        b"Down" => Refusal::Down(text(fields.next())?),
        b"InvalidName" => Refusal::InvalidName,
        b"UnknownControl" => Refusal::UnknownControl,
        b"Denied" => Refusal::Denied(text(fields.next())?),
        b"NoSuchService" => Refusal::NoSuchService,
        b"InvalidType" => Refusal::InvalidType,
        b"ValueTooLong" => Refusal::ValueTooLong(large(fields.next())?),
        b"NotUtf8" => Refusal::NotUtf8,
        b"ReadOnly" => Refusal::ReadOnly(large(fields.next())?),
        b"AreaFull" => Refusal::AreaFull(large(fields.next())?, large(fields.next())?),
        b"NumberSpent" => Refusal::NumberSpent(large(fields.next())?),
        _ => return None,
    })
}

fn output(line: &[u8]) -> Option<Output> {
    let mut fields = line.split(|byte| *byte == b' ');
    let f = &mut fields;
    f.next()?;
    let output = match f.next()? {
        b"event" => Output::Event(text(f.next())?),
        b"change" => Output::Change(text(f.next())?, text(f.next())?),
        b"all-properties" => Output::AllProperties,
        b"action" => Output::Action(text(f.next())?, small(f.next())?),
        b"command" => {
            let file = text(f.next())?;
            let number = small(f.next())?;
            let name = f.next()?;
            let word = WORDS.iter().position(|word| *word == name)?;
            let mut args = Vec::new();
            for field in f.by_ref() {
                args.push(text(Some(field))?);
            }
            Output::Command(file, number, word, args)
        }
        b"put" => Output::Put(large(f.next())?, text(f.next())?, text(f.next())?),
        b"stored" => Output::Stored(text(f.next())?),
        b"unset" => Output::Unset(text(f.next())?, refusal(f)?),
        b"spawn" => Output::Spawn(small(f.next())?, text(f.next())?, text(f.next())?),
        b"no-pid" => Output::NoPid(text(f.next())?),
        b"kill" => Output::Kill(small(f.next())?, text(f.next())?),
        b"env" => Output::Env(text(f.next())?, text(f.next())?),
        b"tree" => Output::Tree(text(f.next())?),
        b"noted" => Output::Noted,
        b"ok" => Output::Ok,
        b"released" => Output::Released,
        b"timeout" => Output::Timeout,
        b"blocked" => Output::Blocked,
        b"idle" => Output::Idle,
        b"down" => Output::Down,
        b"too-far" => Output::TooFar,
        b"no-process" => Output::NoProcess,
        b"reboot" => Output::Reboot(text(f.next())?),
        b"accepted" => Output::Accepted(large(f.next())?),
        b"control" => Output::Control(large(f.next())?),
        b"refused" => Output::Refused(refusal(f)?),
        _ => return None,
    };
    if f.next().is_some() { None } else { Some(output) }
}

fn head(line: &[u8]) -> Option<Input> {
    let mut fields = line.split(|byte| *byte == b' ');
    let f = &mut fields;
    let input = match f.next()? {
        b"boot" => Input::Boot,
        b"next" => Input::Next,
        b"tick" => Input::Tick(large(f.next())?),
        b"exit" => Input::Exit(text(f.next())?, number(f.next(), 255)? as u8),
        b"file" => Input::File(text(f.next())?, text(f.next())?),
        b"set" => Input::Set(small(f.next())?, text(f.next())?, text(f.next())?),
        _ => return None,
    };
    if f.next().is_some() { None } else { Some(input) }
}

fn read(bytes: &[u8]) -> Option<Vec<Entry>> {
    let body = bytes.strip_prefix(b"initsim 1\n")?.strip_suffix(b"end\n")?;
    let mut history: Vec<Entry> = Vec::new();
    let mut rest = body;
    while !rest.is_empty() {
        let end = rest.iter().position(|byte| *byte == b'\n')?;
        let line = &rest[..end];
        rest = &rest[end + 1..];
        if line.first() == Some(&b' ') {
            history.last_mut()?.outputs.push(output(line)?);
        } else {
            history.push(Entry { input: head(line)?, outputs: Vec::new() });
        }
    }
    Some(history)
}

fn pattern_of(shape: &str) -> Option<&'static [u8]> {
    match shape {
        "short" => Some(b"next\n idle\n"),
        "boot" => Some(
            b"next\n event property:sys.boot=1\n action /system/etc/init/hw/init.rc 120\n command /system/etc/init/hw/init.rc 121 setprop sys.wifi.state ready\n put 1200 sys.wifi.state ready\n ok\n",
        ),
        "escapes" => Some(b"file /data/a%20b %00%01%02%0A%FF%FE%20%25\n tree /data/a%20b\n"),
        "long" => Some(
            b"set 1 persist.vendor.radio.operator.name aaaaaaaaaaaaaaaaaaaaaaaaaaaaaaaaaaaaaaaaaaaaaaaaaaaaaaaaaaaa\n accepted 17\n",
        ),
        _ => None,
    }
}

fn run() -> Option<usize> {
    let words: Vec<String> = env::args().collect();
    let pattern = pattern_of(words.get(1)?)?;
    let bytes: usize = words.get(2)?.parse().ok()?;
    let times: u32 = words.get(3)?.parse().ok()?;
    let mut text = b"initsim 1\n".to_vec();
    for _ in 0..bytes / pattern.len() {
        text.extend_from_slice(pattern);
    }
    text.extend_from_slice(b"end\n");
    let mut found = 0;
    for _ in 0..times {
        let history = read(&text)?;
        found = history.len();
        std::hint::black_box(&history);
    }
    Some(found)
}

fn main() {
    match run() {
        Some(count) => println!("{count}"),
        None => exit(2),
    }
}
