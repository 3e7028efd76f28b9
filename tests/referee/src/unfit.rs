//! Readings that don't fit: with a wrong length or record number, cut, or with
//! bytes over. Each is put to Spell, Tokens and both sides of Compare, and each
//! of these answers 12.

use crate::harness::{compare, spell, tokens, Harness};
use referee::bench::refusal;
use referee::random::Rng;
use referee::table::Table;
use referee::value::{Value, RECORD};
use referee::wrong::{every, Places};

/// A reading that doesn't fit, and one that does.
fn refused(h: &mut Harness, table: &[u8], start: u64, bad: &[u8], good: &[u8]) {
    let room = usize::from(good[2]);
    h.put_stated(spell(table, start, bad), room, refusal(12), &[]);
    h.put_stated(tokens(table, start, bad), 3 * room, refusal(12), &[]);
    h.put_stated(compare(table, start, bad, good), 0, refusal(12), &[]);
    h.put_stated(compare(table, start, good, bad), 0, refusal(12) + 1, &[]);
}

/// Every other byte at every place but a Byte's argument.
pub fn each_byte(h: &mut Harness, table: &Table, k: usize, value: &Value) {
    let (bytes, good) = (table.bytes(), value.reading(table, k));
    for change in every(&good) {
        refused(h, &bytes, k as u64, &change.made(&good), &good);
    }
}

/// What could be mistaken for a length or a record number, at every record.
pub fn each_record(h: &mut Harness, table: &Table, k: usize, value: &Value) {
    let (bytes, places) = (table.bytes(), Places::new(table, k, value));
    let good = &places.reading;
    for i in 0..places.records() {
        for change in places.bytes(i) {
            refused(h, &bytes, k as u64, &change.made(good), good);
        }
        for bad in places.together(i) {
            refused(h, &bytes, k as u64, &bad, good);
        }
    }
}

/// The same at so many records by chance, the last one among them.
pub fn some_records(
    h: &mut Harness,
    rng: &mut Rng,
    table: &Table,
    k: usize,
    value: &Value,
    count: usize,
) {
    let (bytes, places) = (table.bytes(), Places::new(table, k, value));
    let good = &places.reading;
    for turn in 0..count {
        let i = if turn == 0 { places.records() - 1 } else { rng.below(places.records()) };
        let change = rng.choose(&places.bytes(i));
        refused(h, &bytes, k as u64, &change.made(good), good);
        let together = rng.choose(&places.together(i));
        refused(h, &bytes, k as u64, &together, good);
    }
}

/// Cut at each byte, and with up to a record over.
pub fn torn(h: &mut Harness, table: &Table, k: usize, value: &Value) {
    let (bytes, good) = (table.bytes(), value.reading(table, k));
    for cut in 0..good.len() {
        refused(h, &bytes, k as u64, &good[..cut], &good);
    }
    for over in 1..=RECORD {
        let mut bad = good.clone();
        bad.extend(&good[good.len() - RECORD..][..over]);
        refused(h, &bytes, k as u64, &bad, &good);
    }
}
