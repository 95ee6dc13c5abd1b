// The protocol of the value cell in plain Rust, for comparison: the same loads and stores, sequentially consistent, with
// the same loops over bytes. `plain read N`, `plain write N`.
use std::sync::atomic::{AtomicU64, Ordering::SeqCst};

const BACKUP: usize = 4;
const CELL: usize = 16;

fn serial(len: u64, number: u64) -> u64 {
    (len << 56) + number * 2
}

fn word_of(value: &[u8], k: usize) -> u64 {
    let mut bytes = [0u8; 8];
    for j in 0..8 {
        if 8 * k + j < value.len() {
            bytes[j] = value[8 * k + j];
        }
    }
    u64::from_le_bytes(bytes)
}

// A word that stands already is not stored again.
fn put(slot: &AtomicU64, word: u64) {
    if slot.load(SeqCst) != word {
        slot.store(word, SeqCst);
    }
}

fn write_cell(table: &[AtomicU64], number: u64, value: &[u8]) {
    let clean = table[CELL].load(SeqCst);
    let mut old = [0; 12];
    for k in 0..12 {
        old[k] = table[CELL + 1 + k].load(SeqCst);
    }
    for k in 0..12 {
        put(&table[BACKUP + k], old[k]);
    }
    table[CELL].store(clean + 1, SeqCst);
    for k in 0..12 {
        put(&table[CELL + 1 + k], word_of(value, k));
    }
    table[CELL].store(serial(value.len() as u64, number), SeqCst);
}

fn read_cell(table: &[AtomicU64], out: &mut [u8; 91]) -> Result<(u8, u64), (u64, u64)> {
    let first = table[CELL].load(SeqCst);
    let base = if first % 2 == 1 { BACKUP } else { CELL + 1 };
    let mut words = [0; 12];
    for k in 0..12 {
        words[k] = table[base + k].load(SeqCst);
    }
    let last = table[CELL].load(SeqCst);
    if first != last {
        return Err((first, last));
    }
    for k in 0..12 {
        let bytes = words[k].to_le_bytes();
        for j in 0..8 {
            if 8 * k + j < 91 {
                out[8 * k + j] = bytes[j];
            }
        }
    }
    Ok(((last >> 56) as u8, last % (1 << 56) / 2))
}

fn main() {
    let words: Vec<String> = std::env::args().collect();
    let count: u64 = words[2].parse().unwrap();
    let value = b"a value of middling length";
    let table: Vec<AtomicU64> = (0..29).map(|_| AtomicU64::new(0)).collect();
    table[CELL].store(serial(value.len() as u64, 1), SeqCst);
    for k in 0..12 {
        table[CELL + 1 + k].store(word_of(value, k), SeqCst);
    }
    if words[1] == "write" {
        for k in 0..count {
            write_cell(&table, k + 2, value);
        }
        println!("{count}");
        return;
    }
    let mut out = [0; 91];
    let mut whole = 0u64;
    for _ in 0..count {
        if found(&table, &mut out) {
            whole += 1;
        }
    }
    println!("{whole}");
}

#[inline(never)]
fn found(table: &[AtomicU64], out: &mut [u8; 91]) -> bool {
    read_cell(table, out).is_ok()
}
