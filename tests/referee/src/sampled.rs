//! Random cases from a seed.

use crate::harness::{check, compare, read, spell, tokens, Harness};
use crate::unfit;
use referee::bench::Request;
use referee::calls::work_need;
use referee::random::{
    bad_start, changed_line, damaged_reading, damaged_table, rival, star_nest, table, Grower, Rng,
    Room,
};
use referee::table::{Kind, Letter, Record, Table};
use referee::value::{fit, Value, RECORD};

#[derive(Clone, Copy, PartialEq, Debug)]
pub enum Size {
    Small,
    Medium,
    Long,
}

/// A random table of the size, and a start number in range.
pub fn start(rng: &mut Rng, size: Size) -> (Table, usize) {
    let records = match size {
        Size::Small => 1 + rng.below(12),
        Size::Medium => 1 + rng.below(60),
        Size::Long if rng.once_in(4) => 254,
        Size::Long => 100 + rng.below(155),
    };
    let mut table = match rng.below(20) {
        0 => {
            let letter = rng.choose(&[Letter::range(0x61, 0x61), Letter::other(0x61, 0x61)]);
            star_nest(letter, records, rng.below(2) as u8)
        }
        1 => comb(rng, records),
        _ => table(rng, records),
    };
    // A Star on top makes long lines likely.
    if size == Size::Long || rng.once_in(6) {
        let tag = u8::from(rng.once_in(20));
        table.records.push(Record { kind: Kind::Star(records - 1), tag });
    }
    let m = table.records.len();
    let k = if rng.once_in(4) && size != Size::Long { rng.below(m) } else { m - 1 };
    (table, k)
}

/// A comb of one kind over leaves: the deepest nesting of Or or Seq.
fn comb(rng: &mut Rng, records: usize) -> Table {
    let (seq, left) = (rng.once_in(2), rng.once_in(2));
    let leaf = |rng: &mut Rng| {
        let kind = rng.choose(&[
            Kind::Letter(Letter::range(0x61, 0x61)),
            Kind::Letter(Letter::range(0x61, 0x62)),
            Kind::Letter(Letter::other(0x61, 0x61)),
            Kind::Empty,
            Kind::Empty,
        ]);
        Record { kind, tag: rng.choose(&[0, 0, 3]) }
    };
    let mut table = Table { records: vec![leaf(rng)] };
    while table.records.len() + 2 <= records {
        let top = table.records.len() - 1;
        table.records.push(leaf(rng));
        let (a, b) = if left { (top, top + 1) } else { (top + 1, top) };
        let kind = if seq { Kind::Seq(a, b) } else { Kind::Or(a, b) };
        table.records.push(Record { kind, tag: 0 });
    }
    while table.records.len() < records {
        let top = table.records.len() - 1;
        table.records.push(Record { kind: Kind::Star(top), tag: 0 });
    }
    table
}

/// Grows a value; of several tries the longest that a line can hold.
pub fn grown(rng: &mut Rng, table: &Table, k: usize, size: Size) -> Option<Value> {
    let grower = Grower::new(table);
    let (tries, most) = match size {
        Size::Small => (1, 12),
        Size::Medium => (2, 70),
        Size::Long => (8, 255),
    };
    let mut best: Option<Value> = None;
    for _ in 0..tries {
        let mut room = Room { bytes: rng.below(most + 1) as isize, eager: false };
        let value = grower.value(rng, k, &mut room)?;
        let (len, had) = (value.line().len(), best.as_ref().map_or(0, |v| v.line().len()));
        if best.is_none() || (len <= 255 && len > had) {
            best = Some(value);
        }
    }
    best
}

/// A value of about as many bytes as a line may have, or just over.
fn eager(rng: &mut Rng, table: &Table, k: usize) -> Option<Value> {
    let bytes = rng.choose(&[254, 255, 256, 300]);
    Grower::new(table).value(rng, k, &mut Room { bytes, eager: true })
}

/// All calls around one random table.
pub fn round(h: &mut Harness, rng: &mut Rng, size: Size) {
    let (table, k) = start(rng, size);
    let (bytes, start) = (table.bytes(), k as u64);
    h.put(check(&bytes), 0);

    let long = if size == Size::Small { 100 } else { 8 };
    let value = if rng.once_in(long) { eager(rng, &table, k) } else { grown(rng, &table, k, size) };
    let mut line = value.as_ref().map_or_else(|| b"ab".to_vec(), |v| v.line());
    match rng.below(8) {
        0 | 1 => line = changed_line(rng, &line),
        2 if line.len() > 255 => line.truncate(256),
        3 | 4 => line.truncate(255),
        _ => {}
    }
    if rng.once_in(40) {
        let bytes = rng.choose(&[&b"aab"[..], b"aab;"]);
        line = (0..rng.below(300)).map(|_| rng.choose(bytes)).collect();
    }
    // A wide table and a long line are dear for Read: one of them gives way.
    if size == Size::Medium && line.len() > 100 && rng.below(4) != 0 && line.len() < 256 {
        line.truncate(100);
    }
    reads(h, rng, &table, k, &line, size);

    // Readings of the same line, and one of another.
    let mut readings: Vec<Vec<u8>> = Vec::new();
    if line.len() <= 255 {
        readings.extend(h.reader.reading(&table, k, &line));
        if !readings.is_empty() {
            for _ in 0..2 {
                let other = rival(rng, &table, k, &line).expect("a rival");
                readings.push(other.reading(&table, k));
            }
        }
    }
    readings.extend(value.map(|v| v.reading(&table, k)));
    readings.extend(grown(rng, &table, k, size).map(|v| v.reading(&table, k)));
    if rng.once_in(8) {
        readings.extend(eager(rng, &table, k).map(|v| v.reading(&table, k)));
    }
    if readings.is_empty() {
        readings.push(vec![5, 0, 0, k as u8]);
    }
    for reading in &readings {
        walks(h, rng, &bytes, start, reading);
    }
    for one in &readings {
        for two in &readings {
            h.put(compare(&bytes, start, one, two), 0);
        }
    }
    // Wrong lengths and record numbers in those that fit.
    for reading in &readings {
        if let Some(value) = fit(&table, k, reading) {
            unfit::some_records(h, rng, &table, k, &value, 3);
            if reading.len() <= 10 * RECORD && rng.once_in(200) {
                unfit::each_byte(h, &table, k, &value);
            }
        }
    }
    let damages = if size == Size::Long { 6 } else { 12 };
    for _ in 0..damages {
        let good = rng.choose(&readings);
        let bad = damaged_reading(rng, &good);
        walks(h, rng, &bytes, start, &bad);
        h.put(compare(&bytes, start, &bad, &good), 0);
        h.put(compare(&bytes, start, &good, &bad), 0);
        let worse = damaged_reading(rng, &bad);
        h.put(compare(&bytes, start, &bad, &worse), 0);
    }
    for number in 1..=6 {
        let damaged = damaged_table(rng, &table, number);
        h.put(check(&damaged), 0);
        mixed(h, rng, &damaged, table.records.len(), k, &line, &readings, false);
    }
    let dear = size != Size::Small && line.len() > 60;
    for _ in 0..8 {
        mixed(h, rng, &bytes, table.records.len(), k, &line, &readings, dear);
    }
}

/// Read with work areas and buffers at, around and far below the need.
fn reads(h: &mut Harness, rng: &mut Rng, table: &Table, k: usize, line: &[u8], size: Size) {
    let (bytes, start) = (table.bytes(), k as u64);
    let need = work_need(table.records.len(), line.len());
    let cheap = |work: usize| work < need || line.len() > 255;
    let answer =
        if line.len() <= 255 { h.reader.reading(table, k, line).map_or(8, |v| v.len()) } else { 8 };
    let works = [need, need - 1, need / 2, 0, need + 5];
    let outs = [answer, answer - 1, answer + 9, answer - 2, answer / 2, 0];
    let mut spent = 0;
    let dear = if size == Size::Small { outs.len() + 1 } else { 2 };
    for work in works {
        for out in outs {
            if !cheap(work) {
                // The first two are the need itself and one below.
                spent += 1;
                if spent > dear {
                    continue;
                }
            }
            h.put(read(&bytes, start, line, work), out);
        }
    }
    let outside = bad_start(rng, table.records.len());
    h.put(read(&bytes, outside, line, need), answer);
}

/// Spell and Tokens of one reading with buffers at, around and far below the
/// need, and Tokens with 3 bytes for each byte of the line.
fn walks(h: &mut Harness, rng: &mut Rng, bytes: &[u8], start: u64, reading: &[u8]) {
    let (spelled, listed) = needs(bytes, start, reading);
    for out in [spelled, spelled.saturating_sub(1), spelled + 7, rng.below(spelled + 1), 0] {
        h.put(spell(bytes, start, reading), out);
    }
    let below = rng.below(listed + 1);
    for out in [listed, listed.saturating_sub(1), listed + 7, below, 0, 3 * spelled] {
        h.put(tokens(bytes, start, reading), out);
    }
}

/// The bytes that Spell and Tokens would write, or a few where they refuse.
fn needs(bytes: &[u8], start: u64, reading: &[u8]) -> (usize, usize) {
    use referee::calls::{trace_spell, trace_tokens};
    let need = |answer: u64, width: u64| match answer >> 32 {
        0 => (answer * width) as usize,
        11 => (answer & 0xffff_ffff) as usize,
        _ => 6,
    };
    let spelled = need(trace_spell(bytes, start, reading, &mut []), 1);
    let listed = need(trace_tokens(bytes, start, reading, &mut []), 3);
    (spelled, listed)
}

/// One call with each argument good or bad by chance, for the order of the
/// refusals.
#[allow(clippy::too_many_arguments)]
fn mixed(
    h: &mut Harness,
    rng: &mut Rng,
    bytes: &[u8],
    records: usize,
    k: usize,
    line: &[u8],
    readings: &[Vec<u8>],
    dear: bool,
) {
    let start = if rng.once_in(2) { k as u64 } else { bad_start(rng, records) };
    let reading = |rng: &mut Rng| {
        let good = rng.choose(readings);
        match rng.below(3) {
            0 => damaged_reading(rng, &good),
            _ => good,
        }
    };
    let (one, two) = (reading(rng), reading(rng));
    let request: Request = match rng.below(4) {
        0 => {
            let mut line = line.to_vec();
            if rng.once_in(3) {
                line.resize(256 + rng.below(3), 0x61);
            }
            let need = work_need(bytes.len() / 4, line.len());
            let mut work = rng.choose(&[need, need.saturating_sub(1), 0, need / 2]);
            if dear && work >= need {
                work = need.saturating_sub(1);
            }
            read(bytes, start, &line, work)
        }
        1 => spell(bytes, start, &one),
        2 => tokens(bytes, start, &one),
        _ => compare(bytes, start, &one, &two),
    };
    let out = rng.choose(&[0, 1, 3, 8, 64, 1024]);
    h.put(request, out);
}
