//! The deepest nestings, the longest readings, token lists, live lines and pages
//! of each call, on a thread of 1 MiB stack. The answers are known in closed form;
//! the readings are built without recursion, so the thread's stack is the
//! library's.

use crate::ffi::Lending;
use crate::harness::{apart, check, compare, compile, order, page, read, spell, tokens, Harness};
use crate::pages::{each_class, last};
use crate::typing;
use referee::bench::refusal;
use referee::calls::work_need;
use referee::page::{Rooms, Who};
use referee::pairs::{Pair, MOST};
use referee::random::star_nest;
use referee::table::{Kind, Letter, Record, Table};

const STACK: usize = 1 << 20;
const LEVELS: usize = 254;

/// The letters of the tables here. Both hold the byte 0x61 and not 0x60.
const LETTERS: [Letter; 2] = [Letter::range(0x61, 0x61), Letter::other(0x60, 0x60)];

/// The byte a of record k, in a reading.
const fn byte(k: u8) -> [u8; 4] {
    [1, 0x61, 1, k]
}

/// How a length over 255 is written: modulo 256, or as 255.
type Written = fn(usize) -> u8;
const MODULO: Written = |length| (length % 256) as u8;
const CAPPED: Written = |length| length.min(255) as u8;

/// The reading of so many nested Stars with the given counts (level from the
/// bottom, count); every other level has one iteration. The record of a level
/// has its number, the letter 0.
fn nest(levels: usize, counts: &[(usize, u8)], written: Written) -> Vec<u8> {
    let mut reading = byte(0).to_vec();
    let mut length = 1;
    for level in 1..=levels {
        let count = counts.iter().find(|c| c.0 == level).map_or(1, |c| c.1);
        length *= usize::from(count);
        let mut next = vec![5, count, written(length), level as u8];
        for _ in 0..count {
            next.extend_from_slice(&reading);
        }
        reading = next;
    }
    reading
}

/// One iteration at each of the levels.
fn chain(levels: usize) -> Vec<u8> {
    let stars = (1..=levels as u8).rev().flat_map(|level| [5, 1, 1, level]);
    stars.chain(byte(0)).collect()
}

/// The same count at every level: one iteration of each, the last or the
/// first, holds the levels below, and the others are chains.
fn spine(levels: usize, count: u8, last: bool, written: Written) -> Vec<u8> {
    let more = usize::from(count) - 1;
    let others = |level: usize| chain(level - 1).repeat(more);
    let mut reading = Vec::new();
    for level in (1..=levels).rev() {
        reading.extend([5, count, written(1 + level * more), level as u8]);
        if last {
            reading.extend(others(level));
        }
    }
    reading.extend(byte(0));
    if !last {
        (1..=levels).for_each(|level| reading.extend(others(level)));
    }
    reading
}

/// The tokens of a line of 255 bytes, one for each byte.
fn each_byte(tag: u8) -> Vec<u8> {
    (0..255).flat_map(|i| [tag, i, 1]).collect()
}

/// Spell, Tokens and Compare of a reading that fits and spells a line.
fn walks(h: &mut Harness, table: &[u8], reading: &[u8], line: &[u8], listed: &[u8]) {
    let start = table.len() as u64 / 4 - 1;
    let (n, count) = (line.len(), listed.len() as u64 / 3);
    h.put_known(spell(table, start, reading), n + 3, n as u64, line);
    h.put_known(spell(table, start, reading), n - 1, refusal(11) + n as u64, &[]);
    h.put_known(tokens(table, start, reading), listed.len() + 3, count, listed);
    h.put_known(compare(table, start, reading, reading), 0, 0, &[]);
}

/// Lines by turns of one byte a and of two, so that no two neighbours are alike;
/// with the tag a the class bytes are as many bytes a.
fn by_turns(lines: usize) -> Vec<u8> {
    (0..lines).flat_map(|i| [&b"a\n"[..], b"aa\n"][i % 2]).copied().collect()
}

/// A line of bytes a with its POSIX reading: as the only one of a page, and as
/// the class bytes of one.
fn on_pages(h: &mut Harness, table: &[u8], reading: &[u8], line: &[u8], listed: &[u8]) {
    let work = work_need(table.len() / 4, line.len()).max(6);
    let rooms = Rooms { work, reading: reading.len(), first: listed.len(), second: 0 };
    let class = listed.first().copied().unwrap_or(0);
    let each = [5, 1, 1, 1, 1, class, 1, 0];
    h.put_known(page(&last(table), &each_class(), line, rooms), 9, 2, &each);
    let by_lines = last(&star_nest(LETTERS[0], 2, 0x61).bytes());
    let rooms = Rooms { work: work.max(work_need(2, 2)), reading: 12, first: 3, second: 6 };
    let request = || page(&by_lines, &last(table), &by_turns(line.len()), rooms);
    let short = refusal(11) + reading.len() as u64;
    h.put_known(request(), reading.len(), reading.len() as u64 / 4, reading);
    h.put_known(request(), reading.len() - 1, short, &[]);
}

/// Spell, Tokens and Compare of a reading that doesn't fit.
fn refused(h: &mut Harness, table: &[u8], reading: &[u8], good: &[u8]) {
    let start = table.len() as u64 / 4 - 1;
    let mut put = |request, answer| h.put_known(request, 300, answer, &[]);
    put(spell(table, start, reading), refusal(12));
    put(tokens(table, start, reading), refusal(12));
    put(compare(table, start, reading, good), refusal(12));
    put(compare(table, start, good, reading), refusal(12) + 1);
}

/// A reading that spells over 255 bytes: as it is, with its last record
/// damaged, cut by one byte, and with one byte over.
fn too_long(h: &mut Harness, table: &[u8], mut reading: Vec<u8>, good: &[u8]) {
    refused(h, table, &reading, good);
    let last = reading.len() - 1;
    reading[last] ^= 1;
    refused(h, table, &reading, good);
    reading[last] ^= 1;
    refused(h, table, &reading[..last], good);
    reading.push(0);
    refused(h, table, &reading, good);
}

/// A reading that fits, with wrong lengths and record numbers in its first and
/// last records, and in some between.
fn wrong_bytes(h: &mut Harness, table: &[u8], reading: &[u8]) {
    let records = reading.len() / 4;
    let mut bad = reading.to_vec();
    for i in [0, 1, records / 2, records - 2, records - 1] {
        for at in [4 * i + 2, 4 * i + 3] {
            for byte in [1, 127, 128, 255].map(|more| reading[at].wrapping_add(more)) {
                bad[at] = byte;
                refused(h, table, &bad, reading);
            }
            bad[at] = reading[at];
        }
    }
}

fn stars(h: &mut Harness) {
    let plain = star_nest(LETTERS[0], LEVELS + 1, 0).bytes();
    let tagged = star_nest(LETTERS[1], LEVELS + 1, 9).bytes();
    let listed = each_byte(9);
    let line = [0x61; 255];
    let start = LEVELS as u64;
    h.from("Check of 254 Stars");
    h.put_known(check(&plain), 0, 255, &[]);

    h.from("254 Stars, one iteration each");
    let thin = chain(LEVELS);
    walks(h, &plain, &thin, b"a", &[]);
    h.from("254 Stars, 255 iterations at the bottom");
    let low = nest(LEVELS, &[(1, 255)], MODULO);
    walks(h, &tagged, &low, &line, &listed);
    h.from("254 Stars, 255 iterations on top");
    let high = nest(LEVELS, &[(254, 255)], MODULO);
    assert_eq!(high.len() / 4, 1 + 255 * 254);
    walks(h, &tagged, &high, &line, &listed);
    h.from("254 Stars, 2 iterations each, the last one deep");
    let late = spine(LEVELS, 2, true, MODULO);
    walks(h, &tagged, &late, &line, &listed);
    h.from("254 Stars, 2 iterations each, the first one deep");
    let early = spine(LEVELS, 2, false, MODULO);
    walks(h, &tagged, &early, &line, &listed);
    h.from("254 Stars, wrong lengths and record numbers");
    for reading in [&thin, &low, &high, &late, &early] {
        wrong_bytes(h, &tagged, reading);
    }

    h.from("Read by 254 Stars");
    let count = low.len() as u64 / 4;
    let need = work_need(LEVELS + 1, 255);
    let short = refusal(11) + low.len() as u64;
    for (table, listed) in [(&plain, &[][..]), (&tagged, &listed)] {
        h.put_known(read(table, start, &line, need), low.len() + 5, count, &low);
        h.put_known(read(table, start, &line, need), low.len() - 1, short, &[]);
        on_pages(h, table, &low, &line, listed);
    }

    // At the end of the spine, three iterations of one byte in place of one
    // of one byte and one of two.
    let mut flat = late.clone();
    let end = flat.split_off(late.len() - 24);
    let one = [5, 1, 1, 1, 1, 0x61, 1, 0];
    assert_eq!(end[..12], [&[5, 2, 3, 2][..], &one].concat());
    assert_eq!(end[12..], [5, 2, 2, 1, 1, 0x61, 1, 0, 1, 0x61, 1, 0]);
    flat.extend([&[5, 3, 3, 2], &one.repeat(3)[..]].concat());
    // On top, a last iteration of two bytes in place of two of one byte.
    let mut joined = vec![5, 254, 255, 254];
    joined.extend(chain(LEVELS - 1).repeat(253));
    joined.extend(nest(LEVELS - 1, &[(1, 2)], MODULO));
    h.from("Compare in 254 Stars");
    for (ahead, behind) in [
        (&low, &high),
        (&joined, &high),
        (&low, &joined),
        (&early, &late),
        (&low, &early),
        (&late, &flat),
    ] {
        h.put_known(compare(&plain, start, ahead, behind), 0, 1, &[]);
        h.put_known(compare(&plain, start, behind, ahead), 0, 2, &[]);
    }
    h.put_known(compare(&plain, start, &thin, &high), 0, refusal(14), &[]);
}

/// Readings of over 16 MB, over both letters by turns, with the lengths that
/// can't be written modulo 256, and as 255.
fn millions(h: &mut Harness) {
    let tables = LETTERS.map(|letter| star_nest(letter, LEVELS + 1, 0).bytes());
    let good = nest(LEVELS, &[(254, 255)], MODULO);
    for written in [MODULO, CAPPED] {
        let readings = [
            ("wide on top", nest(LEVELS, &[(254, 255), (253, 80)], written)),
            ("wide at the bottom", nest(LEVELS, &[(3, 80), (2, 255), (1, 255)], written)),
            ("255 iterations each, the last one deep", spine(LEVELS, 255, true, written)),
            ("255 iterations each, the first one deep", spine(LEVELS, 255, false, written)),
        ];
        for ((name, reading), table) in readings.into_iter().zip(tables.iter().cycle()) {
            assert!(reading.len() > 16_000_000);
            h.from(format!("254 Stars, {name}"));
            too_long(h, table, reading, &good);
        }
    }
}

/// A comb of 127 Or or Seq over both letters by turns.
fn comb(seq: bool, left: bool) -> Table {
    let leaf = |i: usize| Record { kind: Kind::Letter(LETTERS[i % 2]), tag: 0 };
    let mut records = vec![leaf(0)];
    for top in (0..254).step_by(2) {
        records.push(leaf(top / 2 + 1));
        let (a, b) = if left { (top, top + 1) } else { (top + 1, top) };
        records.push(Record { kind: if seq { Kind::Seq(a, b) } else { Kind::Or(a, b) }, tag: 0 });
    }
    Table { records }
}

/// All calls on a reading that is the POSIX one of its line.
fn all_calls(h: &mut Harness, table: &Table, reading: &[u8], line: &[u8], listed: &[u8]) {
    let bytes = table.bytes();
    let m = table.records.len();
    walks(h, &bytes, reading, line, listed);
    let request = read(&bytes, m as u64 - 1, line, work_need(m, line.len()));
    h.put_known(request, reading.len(), reading.len() as u64 / 4, reading);
    on_pages(h, &bytes, reading, line, listed);
    let last = reading.chunks(4).rposition(|record| record[0] == 1).expect("a byte");
    let mut bad = reading.to_vec();
    bad[4 * last + 1] = 0x60;
    refused(h, &bytes, &bad, reading);
    wrong_bytes(h, &bytes, reading);
}

/// The numbers of a comb's joining records, the root's first, each with the
/// bytes below it where they are Seq.
fn joining() -> impl Iterator<Item = (u8, u8)> {
    (1..=127).rev().map(|below| (2 * below, below + 1))
}

fn combs(h: &mut Harness) {
    h.from("127 Seq to the left");
    let mut reading: Vec<u8> = joining().flat_map(|(k, n)| [4, 0, n, k]).chain(byte(0)).collect();
    (0..127).for_each(|i| reading.extend(byte(2 * i + 1)));
    all_calls(h, &comb(true, true), &reading, &[0x61; 128], &[]);
    h.from("127 Seq to the right");
    let each = |(k, n)| [[4, 0, n, k], byte(k - 1)].concat();
    let reading: Vec<u8> = joining().flat_map(each).chain(byte(0)).collect();
    all_calls(h, &comb(true, false), &reading, &[0x61; 128], &[]);
    h.from("127 Or to the left");
    let deep: Vec<u8> = joining().flat_map(|(k, _)| [2, 0, 1, k]).chain(byte(0)).collect();
    all_calls(h, &comb(false, true), &deep, b"a", &[]);
    h.from("127 Or to the right");
    let near = [[2, 0, 1, 254], byte(253)].concat();
    all_calls(h, &comb(false, false), &near, b"a", &[]);
    let table = comb(false, false).bytes();
    let far: Vec<u8> = joining().flat_map(|(k, _)| [3, 0, 1, k]).chain(byte(0)).collect();
    walks(h, &table, &far, b"a", &[]);
    h.put_known(compare(&table, 254, &far, &near), 0, 2, &[]);
}

/// A Star over a letter of the given tag and 126 tagged Empties behind it.
fn beside_empties(tag: u8) -> Table {
    let mut records = vec![Record { kind: Kind::Letter(LETTERS[0]), tag }];
    for top in (0..252).step_by(2) {
        records.push(Record { kind: Kind::Empty, tag: 200 });
        records.push(Record { kind: Kind::Seq(top, top + 1), tag: 0 });
    }
    records.push(Record { kind: Kind::Star(252), tag: 0 });
    Table { records }
}

fn empties(h: &mut Harness) {
    let line = [0x61; 255];
    let mut one: Vec<u8> = (1..=126).rev().flat_map(|i| [4, 0, 1, 2 * i]).collect();
    one.extend(byte(0));
    (0..126).for_each(|i| one.extend([0, 0, 0, 2 * i + 1]));
    let mut reading = vec![5, 255, 255, 253];
    reading.extend(one.repeat(255));
    h.from("126 tagged Empties beside a tagged byte, 255 times over");
    let table = beside_empties(9);
    let listed = each_byte(9);
    all_calls(h, &table, &reading, &line, &listed);
    h.put_known(tokens(&table.bytes(), 253, &reading), 765, 255, &listed);
    h.put_known(tokens(&table.bytes(), 253, &reading), 764, refusal(11) + 765, &[]);
    h.from("126 tagged Empties beside a byte, 255 times over");
    let table = beside_empties(0).bytes();
    walks(h, &table, &reading, &line, &[]);
    h.put_known(tokens(&table, 253, &reading), 0, 0, &[]);
}

/// The text in so many pairs of these.
fn within(open: &[u8], text: &[u8], close: &[u8], pairs: usize) -> Vec<u8> {
    [&open.repeat(pairs), text, &close.repeat(pairs)].concat()
}

/// A text and its table, into exactly its length, a longer buffer, and a
/// shorter one.
fn compiled(h: &mut Harness, text: &[u8], table: &[u8]) {
    let m = table.len() as u64 / 4;
    h.put_known(compile(text), table.len(), m, table);
    h.put_known(compile(text), table.len() + 5, m, table);
    h.put_known(compile(text), table.len() - 1, refusal(11) + 4 * m, &[]);
}

fn turned_away(h: &mut Harness, text: &[u8], number: u64) {
    h.put_known(compile(text), 1024, refusal(number), &[]);
}

fn parentheses(h: &mut Harness) {
    h.from("2,047 parentheses around a byte, and 2,048");
    compiled(h, &within(b"(", b"a", b")", 2047), &[2, 0x61, 0x61, 0]);
    compiled(h, &within(b"(", b"\\)", b")", 2047), &[2, 0x29, 0x29, 0]);
    compiled(h, &within(b"(", b"", b")", 2048), &[1, 0, 0, 0]);
    turned_away(h, &within(b"(", b"a", b")", 2048), 15);
    h.from("4,096 bytes of open parentheses, of bars in them, and of closed ones");
    for (word, times) in
        [(&b"("[..], 4096), (b"(a", 2048), (b"(|", 2048), (b"(a|", 1365), (b")", 4096)]
    {
        turned_away(h, &word.repeat(times), 15);
    }
    turned_away(h, &within(b"(", b"|", b"", 4095), 15);
    turned_away(h, &within(b"(", b"|", b")", 2047), 15);
    turned_away(h, &within(b"(", b"a", b")", 2047)[1..], 15);
    turned_away(h, &within(b"(", b"a", b")", 2047)[..4094], 15);
    turned_away(h, &within(b"(", b"a|", b")", 2047), 15);

    // The nests of Stars and the combs above are the tables of these.
    let stars = star_nest(LETTERS[0], LEVELS + 1, 0).bytes();
    h.from("Stars, one behind the other and one in the other");
    compiled(h, &within(b"", b"a", b"*", 254), &stars);
    compiled(h, &within(b"(", b"a", b")*", 254), &stars);
    turned_away(h, &within(b"", b"a", b"*", 255), 16);
    turned_away(h, &within(b"", b"a", b"*", 4095), 16);
    turned_away(h, &within(b"", b"", b"*", 4096), 15);
    turned_away(h, &within(b"(", b"a", b")*", 1365), 16);
    turned_away(h, &within(b"(", b"a", b")*#001", 511), 16);
    turned_away(h, &within(b"(", b"a", b")*#001#001", 372), 15);
    h.from("Or and Seq, one behind the other and one in the other");
    for (seq, bar) in [(false, &b"|"[..]), (true, b"")] {
        let kind = if seq { 4 } else { 3 };
        let next = [bar, b"a"].concat();
        let mut left = vec![2, 0x61, 0x61, 0];
        (0..127).for_each(|i| left.extend([2, 0x61, 0x61, 0, kind, 2 * i, 2 * i + 1, 0]));
        compiled(h, &within(b"", b"a", &next, 127), &left);
        compiled(h, &within(b"(", b"a", &[&next[..], b")"].concat(), 127), &left);
        let mut right = [2, 0x61, 0x61, 0].repeat(128);
        (0..127).for_each(|i| right.extend([kind, 126 - i, 127 + i, 0]));
        compiled(h, &within(&[b"(a", bar].concat(), b"a", b")", 127), &right);
        turned_away(h, &within(b"", b"a", &next, 128), 16);
        turned_away(h, &within(b"", b"a", &next, 4095 / next.len()), 16);
        turned_away(h, &within(b"(", b"a", &[&next[..], b")"].concat(), 1023), 16);
        turned_away(h, &within(&[b"(a", bar].concat(), b"a", b")", 1023), 16);
        turned_away(h, &within(&[b"(a", bar].concat(), b"a", b")", 1023)[..3000], 15);
    }
}

/// Lists of every name over and over, and pairs of which each second name is met
/// behind its first.
fn token_lists(h: &mut Harness) {
    h.from("4,000,000 tokens and 64 pairs");
    let mut tokens: Vec<u8> = (0..=255).flat_map(|name| [name, 0, 1]).collect();
    tokens = tokens.repeat(15_625);
    let mut pairs: Vec<Pair> =
        (0..).map(|i| Pair { first: i, second: 255 - i }).take(MOST).collect();
    let count = tokens.len() as u64 / 3;
    h.put_known(order(&tokens, &pairs), 0, count, &[]);
    pairs[MOST - 1] = Pair { first: 255, second: 254 };
    h.put_known(order(&tokens, &pairs), 0, 254, &[]);
    h.put_known(order(&tokens[1..], &pairs), 0, refusal(18), &[]);
    pairs.push(pairs[0]);
    h.put_known(order(&tokens, &pairs), 0, refusal(17), &[]);
}

/// A line of bytes a is typed to one byte more than it may have, and taken back to
/// nothing: `facts` are those of so many bytes.
fn typed(h: &mut Harness, table: &Table, bytes: usize, facts: fn(usize) -> (bool, bool)) {
    let script = typing::up_and_down(&table.bytes(), bytes);
    h.play_known(&script, &mut |_, _, line| facts(line.len()));
    let script = typing::last_bytes(&table.bytes());
    h.play_known(&script, &mut |_, _, line| facts(line.len()));
}

fn live_lines(h: &mut Harness) {
    h.from("live lines by 254 Stars");
    typed(h, &star_nest(LETTERS[0], LEVELS + 1, 0), 255, |_| (true, true));
    typed(h, &star_nest(LETTERS[1], LEVELS + 1, 9), 60, |_| (true, true));
    let none = Letter::other(0, 255);
    typed(h, &star_nest(none, LEVELS + 1, 0), 60, |n| (n == 0, n == 0));
    for left in [true, false] {
        h.from("live lines by 127 Seq and by 127 Or");
        typed(h, &comb(true, left), 130, |n| (n == 128, n <= 128));
        typed(h, &comb(false, left), 60, |n| (n == 1, n <= 1));
    }
    h.from("live lines by 126 tagged Empties beside a byte");
    typed(h, &beside_empties(9), 60, |_| (true, true));
}

/// Pages of 255 lines by 254 Stars, and their class bytes by as many: lines of 255
/// and 254 bytes by turns, and lines that are all alike.
fn long_pages(h: &mut Harness) {
    h.from("pages of 255 lines by 254 Stars");
    let by_lines = last(&star_nest(LETTERS[1], LEVELS + 1, 0x61).bytes());
    let by_runs = last(&star_nest(LETTERS[0], LEVELS + 1, 0).bytes());
    let long = nest(LEVELS, &[(1, 255)], MODULO);
    let work = work_need(LEVELS + 1, 255);
    let rooms = Rooms { work, reading: long.len(), first: 765, second: 762 };
    let line = |i: usize| [&[0x61; 255][i % 2..], b"\n"].concat();
    let turns: Vec<u8> = (0..255).flat_map(line).collect();
    let mut put = |text: &[u8], rooms, number, written: &[u8]| {
        h.put_known(page(&by_lines, &by_runs, text, rooms), long.len(), number, written);
    };
    let of_line = |number, i| Who::Line.names(refusal(number) + i);
    put(&turns, rooms, long.len() as u64 / 4, &long);
    put(&turns, Rooms { second: 761, ..rooms }, of_line(11, 1), &[]);
    put(&turns[..turns.len() - 1], Rooms { work: work - 1, ..rooms }, of_line(10, 0), &[]);
    put(&[&turns[..], b"a"].concat(), rooms, refusal(20), &[]);
    let alike = line(1).repeat(255);
    put(&alike, rooms, LEVELS as u64 + 1, &chain(LEVELS));
    put(&alike, Rooms { first: 761, ..rooms }, of_line(11, 0), &[]);
    put(&[&line(1).repeat(254)[..], b"a`"].concat(), rooms, of_line(8, 254), &[]);
}

/// Alternatives of which one is as deep as can be, and the other one letter; and
/// every Or of the deepest ones.
fn deep_alternatives(h: &mut Harness) {
    let deep = |seq, left| Table { records: comb(seq, left).records[..253].to_vec() };
    let sides = [
        ("252 Stars", star_nest(LETTERS[0], 253, 0)),
        ("126 Seq to the left", deep(true, true)),
        ("126 Seq to the right", deep(true, false)),
        ("126 Or to the left", deep(false, true)),
        ("126 Or to the right", deep(false, false)),
    ];
    for (name, side) in sides {
        h.from(format!("{name}, or a letter"));
        for (byte, number) in [(0x61, 0), (0x60, 1)] {
            let letter = Letter::range(byte, byte);
            for kind in [Kind::Or(252, 253), Kind::Or(253, 252)] {
                let mut table = side.clone();
                table.records.push(Record { kind: Kind::Letter(letter), tag: 0 });
                table.records.push(Record { kind, tag: 0 });
                h.put_known(apart(&table.bytes(), 254), 0, number, &[]);
                h.put_known(apart(&table.bytes(), 255), 0, refusal(9), &[]);
            }
        }
    }
    for left in [true, false] {
        h.from("every Or of 127");
        let table = comb(false, left).bytes();
        (0..255).for_each(|k| h.put_known(apart(&table, k), 0, 0, &[]));
    }
}

pub fn run() {
    type Part = fn(&mut Harness);
    let parts: [(&str, Part); 9] = [
        ("stack of 1 MiB, nests of Stars", stars),
        ("stack of 1 MiB, readings of over 16 MB", millions),
        ("stack of 1 MiB, combs of Or and Seq", combs),
        ("stack of 1 MiB, empty tagged parts", empties),
        ("stack of 1 MiB, texts of up to 4,097 bytes", parentheses),
        ("stack of 1 MiB, lists of 4,000,000 tokens", token_lists),
        ("stack of 1 MiB, live lines", live_lines),
        ("stack of 1 MiB, pages", long_pages),
        ("stack of 1 MiB, alternatives", deep_alternatives),
    ];
    for (name, part) in parts {
        let thread = std::thread::Builder::new().stack_size(STACK).spawn(move || {
            let mut h = Harness::new(Lending::Guarded);
            part(&mut h);
            h.done(name);
        });
        if thread.expect("a thread").join().is_err() {
            std::process::exit(1);
        }
    }
}
