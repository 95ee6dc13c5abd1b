//! Writes and syncs the bytes of a replace of the crash-safe store, so many times, and nothing else: plain IMG BYTES N.
use std::env;
use std::fs::OpenOptions;
use std::io;
use std::os::unix::fs::FileExt;
use std::process::exit;

const SLOT: u64 = 33_554_440;

fn run() -> io::Result<u32> {
    let bad = || io::Error::from(io::ErrorKind::InvalidInput);
    let words: Vec<String> = env::args().collect();
    let path = words.get(1).ok_or_else(bad)?;
    let bytes: usize = words.get(2).and_then(|word| word.parse().ok()).ok_or_else(bad)?;
    let times: u32 = words.get(3).and_then(|word| word.parse().ok()).ok_or_else(bad)?;
    let file = OpenOptions::new().read(true).write(true).create(true).truncate(false).open(path)?;
    let mut slot = (bytes as u64).to_le_bytes().to_vec();
    slot.resize(8 + bytes, b'a');
    for number in 0..times {
        let next = u64::from((number + 1) % 2);
        file.write_all_at(&slot, 8 + next * SLOT)?;
        file.sync_all()?;
        file.write_all_at(&[next as u8], 0)?;
        file.sync_all()?;
    }
    Ok(times)
}

fn main() {
    match run() {
        Ok(times) => println!("{times}"),
        Err(why) => {
            eprintln!("plain: {why}");
            exit(2)
        }
    }
}
