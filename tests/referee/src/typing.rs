//! Live lines: all small ones, every length and byte, lines filled by hand, and
//! random lists of calls.

use crate::harness::Harness;
use crate::sampled::{grown, start, Size};
use crate::script::{Begin, Script, Work};
use referee::bench::T1;
use referee::live::{Call, Line, MOST_BYTES, MOST_TABLE};
use referee::random::{all_tables, bad_start, changed_line, damaged_table, star_nest, Rng};
use referee::table::{Kind, Letter, Table};

const EXACT: Work = Work::Near(0);
const SHORT: Work = Work::Near(-1);

fn fresh(table: &[u8], start: u64, calls: Vec<(Call, Work)>) -> Script {
    let seed = (table.len() + calls.len()) as u8;
    Script { begin: Begin::New { table: table.to_vec(), start }, calls, seed }
}

/// A call with one work byte less than it needs, and with all.
fn twice(call: Call) -> [(Call, Work); 2] {
    [(call, SHORT), (call, EXACT)]
}

/// Every line over a and b of up to so many bytes is typed, and its last byte
/// taken back.
fn every_line(longest: usize, calls: &mut Vec<(Call, Work)>) {
    for byte in [0x61, 0x62].into_iter().filter(|_| longest > 0) {
        calls.extend(twice(Call::Add(byte)));
        every_line(longest - 1, calls);
        calls.extend(twice(Call::TakeBack));
    }
}

/// All tables of so many records over two letters, with every line of up to so
/// many bytes by the last record, or by each; and a start number outside.
pub fn small(h: &mut Harness, records: usize, longest: usize, each: bool) {
    let mut calls = vec![(Call::TakeBack, EXACT)];
    every_line(longest, &mut calls);
    all_tables(records, &mut |table| {
        h.from("all small tables");
        let bytes = table.bytes();
        for k in if each { 0 } else { records - 1 }..records {
            h.play(&fresh(&bytes, k as u64, calls.clone()));
        }
        if each {
            h.play(&fresh(&bytes, records as u64, vec![(Call::Add(0x61), EXACT)]));
        }
    });
}

/// So many bytes a are typed by the last record, one more is tried with several
/// work areas, all are taken back, and one more of them is tried. Each call is
/// tried with one work byte less before.
pub fn up_and_down(table: &[u8], bytes: usize) -> Script {
    let tries = |call| [(call, SHORT), (call, Work::Null)];
    let mut calls = tries(Call::TakeBack).to_vec();
    (0..bytes).for_each(|_| calls.extend(twice(Call::Add(0x61))));
    calls.extend(tries(Call::Add(0x61)));
    (0..bytes).for_each(|_| calls.extend(twice(Call::TakeBack)));
    calls.extend(tries(Call::TakeBack));
    fresh(table, table.len() as u64 / 4 - 1, calls)
}

/// The last bytes of a line of 255 bytes a by the last record.
pub fn last_bytes(table: &[u8]) -> Script {
    let line = by_hand(table, table.len() as u64 / 4 - 1, &[0x61; MOST_BYTES - 1], 7);
    let add = (Call::Add(0x61), EXACT);
    let calls = vec![add, (Call::Add(0x61), Work::Near(9)), (Call::TakeBack, EXACT), add];
    Script { begin: Begin::Filled(line), calls, seed: 3 }
}

/// Lines of every length by a Star, and a row of as many letters as a table has
/// room for, which needs them all.
pub fn lengths(h: &mut Harness) {
    for letter in [Letter::range(0x61, 0x61), Letter::other(0x62, 0x62), Letter::other(0, 255)] {
        h.from("a line of every length");
        h.play(&up_and_down(&star_nest(letter, 2, 0).bytes(), MOST_BYTES));
    }
    h.from("a row of 128 letters");
    let mut row = vec![2, 0x61, 0x61, 0];
    (0..127).for_each(|i| row.extend([2, 0x61, 0x61, 0, 4, 2 * i, 2 * i + 1, 0]));
    h.play(&up_and_down(&row, 130));
    h.play(&last_bytes(&row));
}

/// Every byte by letters that hold it, that do not, and that hold none.
pub fn bytes(h: &mut Harness) {
    for byte in 0..=255 {
        h.from(format!("byte {byte}"));
        let (add, back) = ((Call::Add(byte), EXACT), (Call::TakeBack, EXACT));
        for kind in [[2, byte, byte], [6, byte, byte], [2, 0, 255], [6, 0, 255], [2, 0x61, 0x62]] {
            let letter = [kind[0], kind[1], kind[2], 0];
            h.play(&fresh(&letter, 0, vec![add, add, back, back]));
            // As the second part of a Seq, the second side of an Or, and in a Star.
            let first = [6, 3, 3, 0, 2, 5, 5, 0];
            for joined in [[4, 1, 2, 0], [3, 2, 1, 0], [5, 2, 0, 0]] {
                let table = [&first[..4], &first[4..], &letter[..], &joined[..]].concat();
                let calls = vec![add, back, (Call::Add(5), EXACT), add, back, add, add];
                h.play(&fresh(&table, 3, calls));
            }
        }
    }
}

/// A line filled by hand: the table, a start number and bytes; the spare bytes
/// of both are any.
fn by_hand(table: &[u8], start: u64, bytes: &[u8], spare: u8) -> Box<Line> {
    let mut line = Line::filled(spare);
    let held = table.len().min(MOST_TABLE);
    line.table[..held].copy_from_slice(&table[..held]);
    line.table_len = table.len();
    line.start = start;
    line.bytes[..bytes.len()].copy_from_slice(bytes);
    line.count = bytes.len();
    Box::new(line)
}

/// Both calls on a line that was filled by hand, each with several work areas.
fn tried(h: &mut Harness, line: &Line) {
    for call in [Call::Add(0x62), Call::TakeBack] {
        for work in [Work::Null, SHORT, EXACT, Work::Bytes(3)] {
            let calls = vec![(call, work), (call, EXACT)];
            h.play(&Script { begin: Begin::Filled(Box::new(line.clone())), calls, seed: 0xa5 });
        }
    }
}

/// The numbers at and around the edges of a length, and far beyond.
fn around(edges: &[usize]) -> Vec<usize> {
    let near = edges.iter().flat_map(|&edge| [edge.wrapping_sub(1), edge, edge.wrapping_add(1)]);
    let mut all: Vec<usize> = near.chain([1 << 16, 1 << 32, (1 << 32) + 2, usize::MAX]).collect();
    all.sort_unstable();
    all.dedup();
    all
}

/// A byte of T1 and another for it: the first changes nothing, and the others are
/// refused by 2, 3, 4, 5 and 6.
const CHANGES: [(usize, u8); 6] = [(0, 2), (0, 7), (38, 1), (1, 0x62), (37, 9), (14, 1)];

/// T1 with ab, and both calls with these fields in place of its own.
fn with_fields(h: &mut Harness, table_len: usize, start: u64, count: usize, change: (usize, u8)) {
    let mut line = by_hand(T1, start, b"ab", 0);
    line.table[change.0] = change.1;
    (line.table_len, line.count) = (table_len, count);
    tried(h, &line);
}

fn table_lengths() -> Vec<usize> {
    around(&[0, 4, T1.len(), MOST_TABLE])
}

fn starts() -> Vec<u64> {
    around(&[0, 9, 256]).into_iter().map(|start| start as u64).collect()
}

fn counts() -> Vec<usize> {
    around(&[0, 2, MOST_BYTES])
}

/// Every field of the struct at its edges, each with every other.
pub fn filled(h: &mut Harness) {
    h.from("lines filled by hand, every field at its edges");
    for table_len in table_lengths() {
        for start in starts() {
            for count in counts() {
                for change in CHANGES {
                    with_fields(h, table_len, start, count, change);
                }
            }
        }
    }
}

/// Every field at its edges, the others in order.
pub fn each_field(h: &mut Harness) {
    h.from("lines filled by hand, one field at its edges");
    table_lengths().into_iter().for_each(|len| with_fields(h, len, 9, 2, CHANGES[0]));
    starts().into_iter().for_each(|start| with_fields(h, T1.len(), start, 2, CHANGES[0]));
    counts().into_iter().for_each(|count| with_fields(h, T1.len(), 9, count, CHANGES[0]));
    CHANGES.into_iter().for_each(|change| with_fields(h, T1.len(), 9, 2, change));
}

/// Lines and constructors with a damaged table, and with a start number outside.
fn damaged(h: &mut Harness, rng: &mut Rng, table: &Table, bytes: &[u8]) {
    for number in 1..=6 {
        let damaged = damaged_table(rng, table, number);
        let start = rng.below(table.records.len()) as u64;
        let spare = rng.byte();
        tried(h, &by_hand(&damaged, start, bytes, spare));
        h.play(&fresh(&damaged, start, vec![(Call::Add(rng.byte()), Work::Bytes(300))]));
    }
    let outside = bad_start(rng, table.records.len());
    tried(h, &by_hand(&table.bytes(), outside, bytes, rng.byte()));
    h.play(&fresh(&table.bytes(), outside, vec![(Call::Add(rng.byte()), Work::Bytes(3))]));
}

/// Some leaves of the table spell no line.
fn barren(rng: &mut Rng, table: &mut Table) {
    let once = rng.choose(&[1_000_000, 1_000_000, 12, 4]);
    for record in &mut table.records {
        if record.kind.children().is_empty() && rng.once_in(once) {
            record.kind = rng.choose(&[Kind::Nothing, Kind::Letter(Letter::other(0, 255))]);
        }
    }
}

fn any_work(rng: &mut Rng) -> Work {
    match rng.below(12) {
        0 => SHORT,
        1 => Work::Near(1 + rng.below(40) as isize),
        2 => Work::Bytes(rng.below(40)),
        3 => Work::Null,
        _ => EXACT,
    }
}

/// Calls that type these bytes, with others among them that are taken back.
fn typed(rng: &mut Rng, bytes: &[u8], astray: usize) -> Vec<(Call, Work)> {
    let mut calls = Vec::new();
    for &byte in bytes {
        if rng.once_in(astray) {
            let wrong = 1 + rng.below(3);
            for _ in 0..wrong {
                let other = rng.byte();
                let other = rng.choose(&[byte, byte.wrapping_add(1), bytes[0], other]);
                calls.push((Call::Add(other), EXACT));
            }
            calls.extend(vec![(Call::TakeBack, EXACT); rng.choose(&[wrong, wrong, wrong + 1])]);
        }
        let work = any_work(rng);
        calls.push((Call::Add(byte), work));
        if !matches!(work, Work::Near(0..)) {
            calls.push((Call::Add(byte), EXACT));
        }
    }
    for _ in 0..rng.below(bytes.len() + 3) {
        calls.push((Call::TakeBack, any_work(rng)));
    }
    calls
}

/// Any calls, with any work areas; bytes are often those of a line.
fn aimless(rng: &mut Rng, line: &[u8], count: usize) -> Vec<(Call, Work)> {
    let any = rng.byte();
    let bytes = [line, &[any]].concat();
    let call = |rng: &mut Rng| match rng.below(5) {
        0 | 1 => Call::TakeBack,
        _ => Call::Add(rng.choose(&bytes)),
    };
    (0..count).map(|_| (call(rng), any_work(rng))).collect()
}

/// Lines of one random table: typed from nothing, with an aim and without one, and
/// filled by hand and then typed on; then what is refused.
pub fn round(h: &mut Harness, rng: &mut Rng, size: Size) {
    let (mut table, k) = start(rng, size);
    barren(rng, &mut table);
    let (bytes, number) = (table.bytes(), k as u64);
    let mut line = grown(rng, &table, k, size).map_or_else(|| b"ab".to_vec(), |v| v.line());
    line.truncate(MOST_BYTES);
    if rng.once_in(3) {
        line = changed_line(rng, &line);
        line.truncate(MOST_BYTES);
    }
    if size != Size::Long {
        h.play(&fresh(&bytes, number, typed(rng, &line, 6)));
        h.play(&fresh(&bytes, number, aimless(rng, &line, 40)));
    }
    // The last bytes of a long line; the bytes before them are filled in.
    let last = line.len().saturating_sub(if size == Size::Long { 6 } else { 20 });
    let calls = typed(rng, &line[last..], 4);
    let begin = Begin::Filled(by_hand(&bytes, number, &line[..last], rng.byte()));
    h.play(&Script { begin, calls, seed: rng.byte() });
    if size != Size::Long {
        damaged(h, rng, &table, &line);
    }
}

/// The constructor by what the struct held before, on tables of 255 records, of
/// 10, of one, and of none.
pub fn made(h: &mut Harness, seeds: &[u8]) {
    let mut longest = star_nest(Letter::range(0, 255), 255, 255).bytes();
    longest[MOST_TABLE - 1] = 255;
    for &seed in seeds {
        h.from(format!("a struct of bytes {seed}"));
        for (table, start) in
            [(&longest[..], 254), (&longest, 255), (T1, 9), (&[], 0), (&[0; 4], 0)]
        {
            let calls = vec![(Call::TakeBack, EXACT), (Call::Add(seed), EXACT)];
            let begin = Begin::New { table: table.to_vec(), start };
            h.play(&Script { begin, calls, seed });
        }
    }
}
