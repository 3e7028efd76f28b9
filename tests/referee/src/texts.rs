//! Texts of the notation: all short ones, all of a few words, and random ones.

use crate::harness::{check, compile, read, Harness};
use crate::sampled::Size;
use referee::bench::refusal;
use referee::calls::work_need;
use referee::notation::{self, Spans, MOST};
use referee::random::{changed_line, damaged_text, notation, post_order, Grower, Rng, Room};
use referee::table::{Kind, Record, Table};

/// Bytes by which every rule is met in texts of 6 bytes.
pub const BYTES: &[&[u8]] =
    &[b"a", b"|", b"*", b"(", b")", b"[", b"-", b"]", b"\\", b"#", b"0", b"1"];

/// Whole words of the grammar.
pub const WORDS: &[&[u8]] =
    &[b"a", b"|", b"*", b"(", b")", b"()", b"\\", b"[a-b]", b"#001", b"#255"];

/// Words that are nearly of the grammar, among some that are.
pub const NEARLY: &[&[u8]] = &[
    b"a", b"|", b"*", b"(", b")", b"2", b"#", b"#01", b"#000", b"#256", b"#1-1", b"[b-a]", b"[a-",
    b"[]-^]", b"[\\-]]", b"]",
];

/// Every byte, and every two, alone and in brackets; every byte in the other
/// places of a range, a tag and parentheses; every tag.
pub fn bytes(h: &mut Harness) {
    let mut put = |text: &[u8]| h.put(compile(text), 24);
    for p in 0..=255 {
        put(&[p]);
        for q in 0..=255 {
            put(&[p, q]);
            put(&[b'[', p, b'-', q, b']']);
        }
        for text in [b"[a-b]a", b"a#123a", b"(a|b)*", b"\\\\(())"] {
            for place in 0..text.len() {
                let mut text = *text;
                text[place] = p;
                put(&text);
            }
        }
    }
    for tag in 0..1000 {
        put(format!("a#{tag:03}").as_bytes());
        put(format!("a#{tag}").as_bytes());
    }
}

/// All texts of up to so many of the words. Of all the spans in them none may
/// have two groupings.
pub fn all(h: &mut Harness, words: &[&[u8]], longest: usize) {
    let mut spans = Spans::every();
    let mut accepted = 0;
    extend(h, &mut spans, words, longest, &mut accepted);
    assert!(spans.most_ways() == 1, "the referee finds two groupings");
}

/// A text by its spans; gives its table.
fn put_spans(h: &mut Harness, spans: &Spans) -> Option<Table> {
    let table = spans.table();
    match &table {
        None => h.put_stated(compile(spans.text()), 24, refusal(15), &[]),
        Some(table) => stated(h, spans.text(), table),
    }
    table
}

fn extend(h: &mut Harness, spans: &mut Spans, words: &[&[u8]], left: usize, accepted: &mut usize) {
    if let Some(table) = put_spans(h, spans) {
        *accepted += 1;
        if accepted.is_multiple_of(64) {
            for line in [&b""[..], b"a", b"ab", b"a1a", b"((*"] {
                reads(h, &table, line);
            }
        }
    }
    if left > 0 {
        for word in words {
            word.iter().for_each(|&c| spans.push(c));
            extend(h, spans, words, left - 1, accepted);
            word.iter().for_each(|_| spans.pop());
        }
    }
}

/// A text of the grammar by its table: the buffer of exactly the table's
/// length, longer, and shorter. And Check of the table.
fn stated(h: &mut Harness, text: &[u8], table: &Table) {
    let m = table.records.len();
    if text.len() > MOST || m > 255 {
        let number = refusal(if text.len() > MOST { 15 } else { 16 });
        [0, 1020, 1024].iter().for_each(|&room| h.put_stated(compile(text), room, number, &[]));
        return;
    }
    let bytes = table.bytes();
    for room in [4 * m, 4 * m + 7] {
        h.put_stated(compile(text), room, m as u64, &bytes);
    }
    for room in [0, 4 * m - 1] {
        h.put_stated(compile(text), room, refusal(11) + 4 * m as u64, &[]);
    }
    h.put_stated(check(&bytes), 0, m as u64, &[]);
}

fn reads(h: &mut Harness, table: &Table, line: &[u8]) {
    let m = table.records.len();
    h.put(read(&table.bytes(), m as u64 - 1, line, work_need(m, line.len())), 64);
}

/// Texts of every length up to past the limit: one word over and over behind
/// a first one, and parentheses.
pub fn lengths(h: &mut Harness) {
    for (first, word) in
        [("", "a"), ("a", "*"), ("a", "|a"), ("(", "a"), ("", "()"), ("a", "#001*"), ("", "[a-b]")]
    {
        h.from(format!("{word} over and over"));
        let mut spans = Spans::useful();
        first.bytes().for_each(|c| spans.push(c));
        while spans.text().len() < MOST + 9 {
            word.bytes().for_each(|c| spans.push(c));
            put_spans(h, &spans);
        }
    }
    h.from("parentheses of every number");
    let empty = Table { records: vec![Record { kind: Kind::Empty, tag: 0 }] };
    for pairs in 1..MOST / 2 + 4 {
        let text = padded(b"", 2 * pairs);
        stated(h, &text, &empty);
        h.put_stated(compile(&text[1..]), 4, refusal(15), &[]);
        h.put_stated(compile(&text[..2 * pairs - 1]), 4, refusal(15), &[]);
    }
}

/// The text in so many more parentheses that it has about so many bytes.
fn padded(text: &[u8], bytes: usize) -> Vec<u8> {
    let more = bytes.saturating_sub(text.len()) / 2;
    [&vec![b'('; more], text, &vec![b')'; more]].concat()
}

/// A random table printed in the notation, which must give the table again,
/// and texts that are damaged.
pub fn round(h: &mut Harness, rng: &mut Rng, size: Size) {
    let records = match size {
        Size::Small => 1 + rng.below(12),
        Size::Medium => 1 + rng.below(120),
        Size::Long if rng.once_in(4) => 1 + rng.below(1500),
        Size::Long => 253 + rng.below(5),
    };
    let table = post_order(rng, records);
    let noise = rng.choose(&[2, 3, 8, 40, 1_000_000]);
    let mut text = notation(rng, &table, noise);
    if size == Size::Long && rng.once_in(2) {
        text = padded(&text, MOST - 3 + rng.below(7));
    }
    stated(h, &text, &table);
    put(h, rng, &text);

    let damages = if size == Size::Small { 24 } else { 8 };
    for _ in 0..damages {
        let bad = damaged_text(rng, &text);
        put(h, rng, &bad);
        if let Some(table) = notation::compile(&bad) {
            stated(h, &bad, &table);
        }
        let worse = damaged_text(rng, &bad);
        put(h, rng, &worse);
    }
    if size == Size::Small {
        let mut room = Room { bytes: 6, eager: false };
        let value = Grower::new(&table).value(rng, records - 1, &mut room);
        let line = value.expect("every table of the notation spells a line").line();
        reads(h, &table, &line);
        let line = changed_line(rng, &line);
        reads(h, &table, &line);
    }
}

/// A text with any buffer.
fn put(h: &mut Harness, rng: &mut Rng, text: &[u8]) {
    let room = rng.choose(&[0, 3, 4, 64, 1019, 1020, 1024]);
    h.put(compile(text), room);
}

/// Each front part of a text with all of the grammar in it, so that every word
/// is met with its end missing.
pub fn torn(h: &mut Harness) {
    let text = b"(a#001|(ab)#002|[b-c]*#003)*\\#[\\-]]()#2550*|((()a)*)*#010";
    for len in 0..=text.len() {
        h.from(format!("the first {len} bytes of a text"));
        for room in [0, 7, 1020] {
            h.put(compile(&text[..len]), room);
        }
    }
}
