//! Alternatives: every record of all small tables and of random ones. Where the
//! library says that two share no line, no line of a sample is spelled by both, and
//! by the library itself each line has the same answers and tokens with the two
//! exchanged, in the table and in its text.

use crate::harness::{apart, check, compile, read, tokens, Harness};
use crate::sampled::{grown, start, Size};
use referee::apart::exchanged;
use referee::bench::refusal;
use referee::calls::work_need;
use referee::random::{
    all_lines, all_tables, bad_start, changed_line, damaged_table, lines_over, notation,
    post_order, star_nest, table as random_table, tagged, Grower, Rng, Room,
};
use referee::relation::Spelling;
use referee::table::{check as checked, Kind, Letter, Record, Table};
use referee::value::RECORD;

/// Asks for every record, and for the number behind the last; gives those of which
/// the library says that their alternatives share no line.
fn each_record(h: &mut Harness, table: &Table) -> Vec<usize> {
    let (bytes, m) = (table.bytes(), table.records.len());
    (0..=m).for_each(|k| h.put(apart(&bytes, k as u64), 0));
    (0..m).filter(|&k| h.library(apart(&bytes, k as u64), 0).0 == 1).collect()
}

/// Stops at a line that two tables should not tell apart, and do.
fn told_apart(h: &Harness, what: &str, one: &Table, two: &Table, line: &[u8]) -> ! {
    let message = format!("{what} with alternatives exchanged");
    h.stop(&message, &[("table", &one.bytes()), ("other", &two.bytes()), ("line", line)]);
}

/// What a yes means: no line is spelled by both.
fn shares_none(h: &Harness, table: &Table, k: usize, lines: &[Vec<u8>]) {
    let Kind::Or(a, b) = table.kind(k) else {
        h.stop(&format!("a yes for record {k}, which is no Or"), &[("table", &table.bytes())]);
    };
    let spelling = Spelling::new(table);
    for line in lines {
        if spelling.spells(a, line) && spelling.spells(b, line) {
            let message = format!("a yes for record {k}, whose alternatives share a line");
            h.stop(&message, &[("table", &table.bytes()), ("line", line)]);
        }
    }
}

/// A table and a start record.
type Rules<'a> = (&'a Table, usize);

/// What the library writes for a line by two tables, which must be as many records
/// with the same tokens, and answered by the same numbers whatever the buffer. None
/// where the line has no reading.
fn same(h: &mut Harness, one: Rules, two: Rules, line: &[u8]) -> Option<[Vec<u8>; 2]> {
    let work = work_need(one.0.records.len(), line.len());
    let both = |h: &mut Harness, room: usize| {
        let by = |h: &mut Harness, rules: Rules| {
            h.library(read(&rules.0.bytes(), rules.1 as u64, line, work), room)
        };
        let (first, second) = (by(h, one), by(h, two));
        if first.0 != second.0 {
            told_apart(h, &format!("other answers of Read into {room} bytes"), one.0, two.0, line);
        }
        (first.0, [first.1, second.1])
    };
    let (refused, _) = both(h, 0);
    if refused >> 32 != 11 {
        return None;
    }
    let need = (refused & 0xffff_ffff) as usize;
    both(h, need - 1);
    let (_, readings) = both(h, need);
    for room in [0, 3 * line.len()] {
        let lists = [(one, &readings[0]), (two, &readings[1])]
            .map(|(rules, v)| h.library(tokens(&rules.0.bytes(), rules.1 as u64, v), room));
        if lists[0] != lists[1] {
            told_apart(h, "other tokens", one.0, two.0, line);
        }
    }
    Some(readings)
}

/// The table with these alternatives exchanged: Check and Apart say the same, and of
/// each line Read and Tokens do, by every start record; the readings are the same
/// but for Left and Right at these records.
fn exchange(h: &mut Harness, table: &Table, ks: &[usize], starts: &[usize], lines: &[Vec<u8>]) {
    let other = ks.iter().fold(table.clone(), |table, &k| exchanged(&table, k));
    let (before, after) = (table.bytes(), other.bytes());
    let asked = |h: &mut Harness, bytes: &[u8]| {
        let records = (0..table.records.len() as u64).map(|k| h.library(apart(bytes, k), 0).0);
        let answers: Vec<u64> = records.collect();
        (h.library(check(bytes), 0).0, answers)
    };
    if asked(h, &before) != asked(h, &after) {
        told_apart(h, "other answers of Check or Apart", table, &other, b"");
    }
    for &start in starts {
        for line in lines {
            let Some([mut one, two]) = same(h, (table, start), (&other, start), line) else {
                continue;
            };
            for record in one.chunks_mut(RECORD) {
                let times = ks.iter().filter(|&&k| k == usize::from(record[3])).count();
                if times % 2 == 1 {
                    record[0] = 5 - record[0];
                }
            }
            if one != two {
                told_apart(h, "more than Left and Right changed", table, &other, line);
            }
        }
    }
}

/// All tables of up to so many records over two letters, with tags on the
/// alternatives.
pub fn small(h: &mut Harness, records: usize) {
    let lines = all_lines(3);
    for m in 1..=records {
        all_tables(m, &mut |table| {
            h.from("all small tables");
            for k in each_record(h, table) {
                shares_none(h, table, k, &lines);
                let Kind::Or(a, b) = table.kind(k) else { unreachable!("an Or") };
                let starts: Vec<usize> = (k..m).collect();
                exchange(h, &tagged(table, 1 << a | 1 << b), &[k], &starts, &lines);
            }
        });
    }
}

fn record(kind: Kind) -> Record {
    Record { kind, tag: 0 }
}

/// An Or of two letters, of each between the same bytes, ahead of one and behind
/// one.
fn two_letters(one: Letter, two: Letter) -> [Table; 4] {
    let plain = |letter| record(Kind::Letter(letter));
    let all = plain(Letter::range(0, 255));
    let seq = |a, b| record(Kind::Seq(a, b));
    let or = |a, b| record(Kind::Or(a, b));
    let (one, two) = (plain(one), plain(two));
    [
        vec![one, two, or(0, 1)],
        vec![one, all, seq(0, 1), two, all, seq(3, 4), or(2, 5)],
        vec![one, all, seq(1, 0), two, all, seq(4, 3), or(5, 2)],
        vec![all, one, all, seq(0, 1), seq(3, 2), all, two, all, seq(5, 6), seq(8, 7), or(4, 9)],
    ]
    .map(|records| Table { records })
}

/// Every two bytes, as Range and as Other, and every two bounds.
pub fn bytes(h: &mut Harness) {
    for a in 0..=255 {
        h.from(format!("byte {a} and each other"));
        for b in 0..=255 {
            let letter = |outside| Letter { a: a.min(b), b: a.max(b), outside };
            let (one, two) = (Letter::range(a, a), Letter { a: b, b, outside: a % 2 == 1 });
            let plain = &two_letters(one, two)[0];
            h.put(apart(&plain.bytes(), 2), 0);
            if a <= b {
                let bounds = &two_letters(letter(false), letter(true))[0];
                h.put_stated(apart(&bounds.bytes(), 2), 0, 1, &[]);
            }
        }
        for letter in [Letter::range(a, a), Letter::other(a, a)] {
            for other in [a, a.wrapping_add(1), a ^ 128, 255 - a] {
                for table in two_letters(letter, Letter::range(other, other)) {
                    h.put(apart(&table.bytes(), table.records.len() as u64 - 1), 0);
                }
            }
        }
    }
}

/// Tables of every number of records, with record numbers around the last, and
/// such as have a part that is a record's; and every length in bytes.
pub fn numbers(h: &mut Harness) {
    for m in 3..=255 {
        h.from(format!("a table of {m} records"));
        let mut table = star_nest(Letter::range(0x61, 0x61), m - 2, 0);
        table.records.push(record(Kind::Letter(Letter::range(0x62, 0x62))));
        table.records.push(record(Kind::Or(m - 3, m - 2)));
        let (bytes, last) = (table.bytes(), m as u64 - 1);
        h.put_stated(apart(&bytes, last), 0, 1, &[]);
        h.put_stated(apart(&bytes, last - 1), 0, 0, &[]);
        let outside = [last + 1, last + 2, last + 256, last + (1 << 16), last + (1 << 32)];
        for number in outside.into_iter().chain([last + (1 << 63), 1 << 63, u64::MAX]) {
            h.put_stated(apart(&bytes, number), 0, refusal(9), &[]);
        }
        for less in 1..4 {
            h.put_stated(apart(&bytes[..bytes.len() - less], last), 0, refusal(1), &[]);
        }
    }
    h.from("all lengths of a table");
    for len in 0..=1030 {
        let table: Vec<u8> = (0..len).map(|i| u8::from(i % 4 == 0)).collect();
        h.put(apart(&table, 0), 0);
        h.put(apart(&table, len as u64 / 4), 0);
    }
}

/// Random records that start or end with a letter of their own, or with the same
/// one, as alternatives; and now and then more around them.
fn parted(rng: &mut Rng, records: usize) -> Table {
    let mut table = Table { records: vec![] };
    let letters = rng.choose(&[(0x61, 0x62), (0x61, 0x61), (0, 255), (0x7f, 0x80)]);
    let behind = rng.once_in(2);
    let mut sides = vec![];
    for letter in [letters.0, letters.1] {
        let from = table.records.len();
        let part = random_table(rng, 1 + records / 2);
        table
            .records
            .extend(part.records.iter().map(|r| Record { kind: moved(r.kind, from), ..*r }));
        let top = table.records.len();
        table.records.push(record(Kind::Letter(Letter::range(letter, letter))));
        let (a, b) = if behind { (top - 1, top) } else { (top, top - 1) };
        table.records.push(Record { kind: Kind::Seq(a, b), tag: rng.choose(&[0, 1, 2, 3]) });
        sides.push(table.records.len() - 1);
    }
    table.records.push(record(Kind::Or(sides[0], sides[1])));
    let top = table.records.len() - 1;
    if rng.once_in(2) {
        table.records.push(record(Kind::Star(top)));
    }
    table
}

/// The same record behind so many others.
fn moved(kind: Kind, by: usize) -> Kind {
    match kind {
        Kind::Or(a, b) => Kind::Or(a + by, b + by),
        Kind::Seq(a, b) => Kind::Seq(a + by, b + by),
        Kind::Star(a) => Kind::Star(a + by),
        other => other,
    }
}

/// A few of the bytes that a table's letters have at their bounds, or beside them.
fn bytes_of(rng: &mut Rng, table: &Table, most: usize) -> Vec<u8> {
    let mut bytes = vec![];
    for record in &table.records {
        if let Kind::Letter(Letter { a, b, outside }) = record.kind {
            bytes.extend([a, b]);
            if outside {
                bytes.extend([a.saturating_sub(1), b.saturating_add(1)]);
            }
        }
    }
    bytes.sort_unstable();
    bytes.dedup();
    while bytes.len() > most {
        bytes.remove(rng.below(bytes.len()));
    }
    bytes
}

/// Lines of a record, as many as are asked for, none of them over 255 bytes.
fn lines_of(rng: &mut Rng, table: &Table, k: usize, count: usize, bytes: usize) -> Vec<Vec<u8>> {
    let grower = Grower::new(table);
    let mut lines = vec![];
    for _ in 0..count {
        let mut room = Room { bytes: rng.below(bytes + 1) as isize, eager: false };
        lines.extend(grower.value(rng, k, &mut room).map(|value| value.line()));
    }
    lines.retain(|line| line.len() <= 255);
    lines
}

/// Every record of a random table, and of damaged ones. Of each that is said to have
/// alternatives that share no line, short lines and lines of either alternative; and
/// lines of the table with these exchanged, one and all.
pub fn round(h: &mut Harness, rng: &mut Rng, size: Size) {
    let (most, longest, few) = match size {
        Size::Small => (12, 3, 4),
        Size::Medium => (58, 2, 3),
        Size::Long => (250, 1, 2),
    };
    let (table, k) = match rng.below(3) {
        0 => start(rng, size),
        1 => {
            let records = 1 + rng.below(most);
            let table = post_order(rng, records);
            let last = table.records.len() - 1;
            (table, last)
        }
        _ => {
            let records = 1 + rng.below(most - 6);
            let table = parted(rng, records);
            let last = table.records.len() - 1;
            (table, last)
        }
    };
    let bytes = table.bytes();
    let yes = each_record(h, &table);
    h.put(apart(&bytes, bad_start(rng, table.records.len())), 0);
    for number in 1..=6 {
        let damaged = damaged_table(rng, &table, number);
        h.put(apart(&damaged, k as u64), 0);
        h.put(apart(&damaged, bad_start(rng, table.records.len())), 0);
    }
    let short = lines_over(&bytes_of(rng, &table, few), longest);
    let mut lines: Vec<Vec<u8>> =
        grown(rng, &table, k, size).map(|v| v.line()).into_iter().collect();
    lines.retain(|line| line.len() <= if size == Size::Small { 255 } else { 60 });
    lines.extend(lines.clone().iter().map(|line| changed_line(rng, line)));
    for &or in yes.iter().take(6) {
        let Kind::Or(a, b) = table.kind(or) else { continue };
        let mut sides = lines_of(rng, &table, a, few, 12);
        sides.extend(lines_of(rng, &table, b, few, 12));
        sides.extend(short.iter().cloned());
        shares_none(h, &table, or, &sides);
        sides.truncate(few);
        exchange(h, &table, &[or], &[or], &sides);
        exchange(h, &table, &[or], &[k], &lines);
    }
    let mut some: Vec<usize> = yes.clone();
    some.retain(|_| !rng.once_in(3));
    lines.extend(short.into_iter().take(2 * few));
    exchange(h, &table, &some, &[k], &lines);
    in_text(h, rng, &table, k, &some, &lines);
}

/// The same where the sides change places in the rule's text, which numbers the
/// records otherwise. A table with a record that no text has is left out.
fn in_text(
    h: &mut Harness,
    rng: &mut Rng,
    table: &Table,
    k: usize,
    ks: &[usize],
    lines: &[Vec<u8>],
) {
    let plain = |record: &Record| match record.kind {
        Kind::Nothing => false,
        Kind::Letter(letter) => !letter.outside,
        _ => true,
    };
    if !table.records[..=k].iter().all(plain) {
        return;
    }
    let other = ks.iter().fold(table.clone(), |table, &k| exchanged(&table, k));
    let made = [table, &other].map(|table| {
        let upto = Table { records: table.records[..=k].to_vec() };
        let text = notation(rng, &upto, 1_000_000);
        h.library(compile(&text), 1020).1
    });
    let [Ok(one), Ok(two)] = made.map(|bytes| checked(&bytes)) else {
        return;
    };
    let last = |table: &Table| table.records.len() - 1;
    for line in lines {
        same(h, (&one, last(&one)), (&two, last(&two)), line);
    }
}

/// Records of short tables that are cut at each byte.
pub fn torn(h: &mut Harness) {
    let tables = two_letters(Letter::range(0x61, 0x61), Letter::range(0x62, 0x62));
    for table in tables.iter().map(Table::bytes) {
        for len in 0..=table.len() {
            h.from(format!("the first {len} bytes of a table"));
            (0..=len as u64 / 4).for_each(|k| h.put(apart(&table[..len], k), 0));
        }
    }
}
