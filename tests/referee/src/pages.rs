//! Pages: all small ones, every number of lines, lines of every length, and
//! random ones.

use crate::harness::{page, Harness};
use crate::sampled::{grown, start, Size};
use referee::bench::T1;
use referee::calls::work_need;
use referee::page::{least_rooms, lines, near_line, Rooms, Rules, MOST_LINES};
use referee::random::{
    all_tables, bad_start, changed_line, damaged_table, more_tags, page as random_page, star_nest,
    tagged, with_blanks, Rng,
};
use referee::table::{check, Kind, Letter, Record, Table};

/// The rules of a table by its last record.
pub fn last(table: &[u8]) -> Rules {
    Rules { table: table.to_vec(), start: table.len() as u64 / 4 - 1 }
}

/// Page rules that read class bytes one by one, whichever they are.
pub fn each_class() -> Rules {
    last(&star_nest(Letter::range(0, 255), 2, 0).bytes())
}

/// Line rules for any bytes, of which a and b are tokens with these names.
fn two_names(a: u8, b: u8) -> Rules {
    let letters = [2, 0x61, 0x61, a, 2, 0x62, 0x62, b, 3, 0, 1, 0, 6, 0x61, 0x62, 0];
    last(&[&letters[..], &[3, 2, 3, 0, 5, 4, 0, 0]].concat())
}

/// Line rules by which the text a has one name, and behind a c the other.
fn by_place(alone: u8, behind: u8) -> Rules {
    let pair = [2, 0x63, 0x63, 0, 2, 0x61, 0x61, behind, 4, 0, 1, 0];
    last(&[&pair[..], &[2, 0x61, 0x61, alone, 3, 2, 3, 0, 5, 4, 0, 0]].concat())
}

/// Line rules for any bytes, of which each row of others than c is a token.
fn rows() -> Rules {
    let row = [6, 0x63, 0x63, 0, 6, 0x63, 0x63, 0, 5, 1, 0, 0, 4, 0, 2, 1];
    last(&[&row[..], &[2, 0x63, 0x63, 0, 3, 3, 4, 0, 5, 5, 0, 0]].concat())
}

/// The least rooms for a page, and the bytes of its own reading; where a line is
/// refused, rooms for every line and a few bytes.
fn least(h: &mut Harness, by_lines: &Rules, by_runs: &Rules, text: &[u8]) -> (Rooms, usize) {
    let table = check(&by_lines.table).expect("line rules that pass");
    let runs = check(&by_runs.table).expect("page rules that pass");
    let (l, p) = (by_lines.start as usize, by_runs.start as usize);
    let Some((classes, mut rooms)) = least_rooms(&mut h.reader, (&table, l), text) else {
        let longest = lines(text).iter().map(|line| line.len().min(255)).max().unwrap_or(0);
        let work = work_need(table.records.len(), longest);
        let reading = 4 * table.records.len() * longest.max(1);
        return (Rooms { work, reading, first: 3 * longest, second: 3 * longest }, 64);
    };
    rooms.work = rooms.work.max(work_need(runs.records.len(), classes.len()));
    let read = classes.len() <= MOST_LINES;
    let reading = if read { h.reader.reading(&runs, p, &classes) } else { None };
    (rooms, reading.map_or(8, |reading| reading.len()))
}

/// A page with the least rooms, and with each of them one byte less.
fn each_room(h: &mut Harness, by_lines: &Rules, by_runs: &Rules, text: &[u8]) {
    let (least, out) = least(h, by_lines, by_runs, text);
    let Rooms { work, reading, first, second } = least;
    let less = |room: usize| room.saturating_sub(1);
    let shorter = [
        Rooms { work: less(work), ..least },
        Rooms { reading: less(reading), ..least },
        Rooms { first: less(first), ..least },
        Rooms { second: less(second), ..least },
    ];
    h.put(page(by_lines, by_runs, text, least), out);
    h.put(page(by_lines, by_runs, text, least), less(out));
    for rooms in shorter.into_iter().filter(|&rooms| rooms != least) {
        h.put(page(by_lines, by_runs, text, rooms), out);
    }
}

/// All sequences of exactly so many of the words.
fn each_text(words: &[&[u8]], count: usize, text: &mut Vec<u8>, visit: &mut dyn FnMut(&[u8])) {
    if count == 0 {
        return visit(text);
    }
    for word in words {
        text.extend(*word);
        each_text(words, count - 1, text, visit);
        text.truncate(text.len() - word.len());
    }
}

/// All pages of up to so many bytes a, b, c and 10, by line rules with two names
/// and with the same name twice; and of a, c and 10, where one text has two names.
pub fn small(h: &mut Harness, longest: usize) {
    for (a, b) in [(1, 2), (255, 255), (127, 255)] {
        h.from(format!("all short pages, names {a} and {b}"));
        let (by_lines, by_runs) = (two_names(a, b), each_class());
        for count in 0..=longest {
            each_text(&[b"a", b"b", b"c", b"\n"], count, &mut vec![], &mut |text| {
                each_room(h, &by_lines, &by_runs, text);
            });
        }
    }
    for (alone, behind) in [(1, 2), (127, 255), (255, 127)] {
        h.from(format!("all short pages, one text with the names {alone} and {behind}"));
        let (by_lines, by_runs) = (by_place(alone, behind), each_class());
        for count in 0..=longest {
            each_text(&[b"a", b"c", b"\n"], count, &mut vec![], &mut |text| {
                each_room(h, &by_lines, &by_runs, text);
            });
        }
    }
}

/// A page with the least rooms.
fn put_least(h: &mut Harness, by_lines: &Rules, by_runs: &Rules, text: &[u8]) {
    let (rooms, out) = least(h, by_lines, by_runs, text);
    h.put(page(by_lines, by_runs, text, rooms), out);
}

/// Every two lines of up to so many bytes a, b and c, of which the rows of a and b
/// are tokens of one name.
pub fn neighbours(h: &mut Harness, longest: usize) {
    h.from("every two short lines");
    let mut all = vec![];
    for count in 0..=longest {
        each_text(&[b"a", b"b", b"c"], count, &mut vec![], &mut |line| all.push(line.to_vec()));
    }
    let (by_lines, by_runs) = (rows(), each_class());
    for one in &all {
        for two in &all {
            put_least(h, &by_lines, &by_runs, &[one, &b"\n"[..], two].concat());
        }
    }
}

/// Lines that are one token: two that differ in one byte, whichever it is, and two
/// of every length that differ at the start, inside, at the end, or by one byte
/// more.
pub fn texts(h: &mut Harness) {
    h.from("two lines of one token each");
    let (by_lines, by_runs) = (last(&[2, 0, 255, 0, 5, 0, 0, 1]), each_class());
    let mut both = |one: &[u8], two: &[u8]| {
        for lines in [[one, two, two], [two, one, one]] {
            put_least(h, &by_lines, &by_runs, &lines.join(&10));
        }
    };
    for byte in (0..=255u8).filter(|&byte| byte != 10) {
        for other in [byte ^ 128, byte.wrapping_add(1), 0].into_iter().filter(|&byte| byte != 10) {
            both(&[0x61, byte, 0x61], &[0x61, other, 0x61]);
        }
        both(&[byte, 0x61], &[byte, 0x62]);
    }
    for length in (1..20).chain(60..70).chain(126..=130).chain(250..=255) {
        let one = vec![0x61; length];
        for place in [0, length / 2, length - 1] {
            let mut two = one.clone();
            two[place] = 0x62;
            both(&one, &two);
        }
        both(&one, &one[1..]);
    }
}

/// All tables of up to so many records over the letters a and b: as line rules,
/// with tags on every choice of records, and as page rules, for lines whose names
/// are these letters.
pub fn tables(h: &mut Harness, records: usize) {
    let (by_lines, by_runs) = (two_names(0x61, 0x62), each_class());
    for m in 1..=records {
        all_tables(m, &mut |table| {
            h.from("all small tables, as page rules");
            for count in 0..=3 {
                each_text(&[b"a\n", b"b\n", b"ab\n"], count, &mut vec![], &mut |text| {
                    for start in 0..m as u64 {
                        let by_runs = Rules { table: table.bytes(), start };
                        each_room(h, &by_lines, &by_runs, text);
                    }
                });
            }
            h.from("all small tables, as line rules");
            for mask in 0..1 << m {
                let table = tagged(table, mask).bytes();
                for text in [&b""[..], b"\n", b"a\nb", b"ab\n\na\n", b"a\na\nb\nb\n"] {
                    each_room(h, &last(&table), &by_runs, text);
                    each_room(h, &Rules { table: table.clone(), start: 0 }, &by_runs, text);
                }
            }
        });
    }
}

/// Every byte in a line and as the end of one, and every name, also beside each
/// that differs from it in one bit.
pub fn bytes(h: &mut Harness) {
    for byte in 0..=255 {
        h.from(format!("byte {byte} in a page"));
        let (by_lines, by_runs) = (two_names(byte, 0), each_class());
        each_room(h, &by_lines, &by_runs, &[0x61, byte, 0x61, 10, byte, 0x62, 0x61]);
        each_room(h, &by_lines, &by_runs, &[byte, byte]);
        for bit in 0..8 {
            put_least(h, &by_place(byte, byte ^ 1 << bit), &by_runs, b"a\nca\nca\na");
        }
        // Class bytes that the page rules hold, and do not.
        for letter in [[2, byte, byte, 0], [6, byte, byte, 0]] {
            each_room(h, &by_lines, &last(&letter), b"a");
        }
    }
}

/// Every number of lines: alike, not alike, and empty, with a closing byte 10 and
/// without.
pub fn counts(h: &mut Harness) {
    let (by_lines, by_runs) = (two_names(1, 2), each_class());
    for count in (0..=MOST_LINES + 5).chain([510, 511, 512, 513, 65_536, 66_000]) {
        h.from(format!("{count} lines"));
        let by_turns = |i: usize| if i.is_multiple_of(2) { &b"a\n"[..] } else { b"b\n" };
        let turns: Vec<u8> = (0..count).flat_map(by_turns).copied().collect();
        for mut text in [turns, b"ab\n".repeat(count), b"\n".repeat(count)] {
            let work = work_need(6, 2).max(work_need(2, count.min(MOST_LINES)));
            let rooms = Rooms { work, reading: 28, first: 6, second: 6 };
            for _ in 0..2 {
                h.put(page(&by_lines, &by_runs, &text, rooms), 4 * count.min(MOST_LINES) + 4);
                h.put(page(&by_lines, &by_runs, &text, Rooms::NONE), 4);
                text.pop();
            }
        }
    }
}

/// A line of every length around the limit, in each of the first places, ahead of
/// one that is refused and behind one that is.
pub fn lengths(h: &mut Harness) {
    let (by_lines, by_runs) =
        (last(&star_nest(Letter::other(0x78, 0x78), 2, 5).bytes()), each_class());
    for length in (0..20).chain(240..=260).chain([510, 511, 512, 513, 65_536 + 9]) {
        h.from(format!("a line of {length} in a page"));
        let long = vec![0x61; length];
        for (before, behind) in [
            (&b""[..], &b""[..]),
            (b"b\n", b"\n"),
            (b"b\n\n", b"\nx"),
            (b"b\nb\nx\n", b""),
            (b"", b"\n\nx\n"),
        ] {
            let text = [before, &long, behind].concat();
            let line = length.min(255);
            let ample = Rooms {
                work: work_need(2, line),
                reading: 4 * line + 4,
                first: 3 * line,
                second: 3 * line,
            };
            h.put(page(&by_lines, &by_runs, &text, ample), 4 * 6);
            h.put(page(&by_lines, &by_runs, &text, Rooms::NONE), 4 * 6);
            h.put(page(&by_lines, &by_runs, &text, Rooms { second: 3, ..ample }), 4 * 6);
            if length < 256 {
                each_room(h, &by_lines, &by_runs, &text);
            }
        }
    }
}

/// Page rules for these class bytes: any bytes, any of the classes that are met,
/// these in a row, or any rules at all.
fn page_rules(rng: &mut Rng, classes: &[u8]) -> Rules {
    let mut table = Table { records: vec![] };
    let letter = |rng: &mut Rng, class: u8| {
        let (below, above) = (rng.choose(&[0, 0, 1]), rng.choose(&[0, 0, 3]));
        let letter = Letter::range(class.saturating_sub(below), class.saturating_add(above));
        Record { kind: Kind::Letter(letter), tag: rng.choose(&[0, 1, class]) }
    };
    let row = rng.once_in(2) && classes.len() <= 100;
    let mut met = classes.to_vec();
    if !row {
        met.sort_unstable();
        met.dedup();
    }
    for class in met {
        let top = table.records.len();
        table.records.push(letter(rng, class));
        if top > 0 {
            let (a, b) = (top - 1, top);
            let kind = if row { Kind::Seq(a, b) } else { Kind::Or(a, b) };
            table.records.push(Record { kind, tag: 0 });
        }
    }
    let top = table.records.len();
    if top == 0 || top > 254 || rng.once_in(10) {
        let any = start(rng, Size::Small).0.bytes();
        return if rng.once_in(4) { last(&any) } else { each_class() };
    }
    if !row {
        table.records.push(Record { kind: Kind::Star(top - 1), tag: rng.choose(&[0, 9]) });
    }
    let rules = last(&table.bytes());
    // Now and then a record behind the start record, and another start record.
    match rng.below(8) {
        0 => Rules { table: [&rules.table[..], &[1, 0, 0, 7]].concat(), ..rules },
        1 => Rules { start: rng.below(table.records.len()) as u64, ..rules },
        _ => rules,
    }
}

/// Rooms at, around and far below the least.
fn any_rooms(rng: &mut Rng, least: Rooms) -> Rooms {
    let mut any = |room: usize| match rng.below(12) {
        0 => room.saturating_sub(1),
        1 => room + 1 + rng.below(9),
        2 => room / 2,
        _ => room,
    };
    Rooms {
        work: any(least.work),
        reading: any(least.reading),
        first: any(least.first),
        second: any(least.second),
    }
}

/// A page with all rules and rooms in order, and with each by chance in order or
/// not, for the order of the refusals.
fn put_mixed(h: &mut Harness, rng: &mut Rng, by_lines: &Rules, by_runs: &Rules, text: &[u8]) {
    let (rooms, out) = least(h, by_lines, by_runs, text);
    let wrong = |rng: &mut Rng, rules: &Rules, once: usize| {
        let table = check(&rules.table).expect("rules that pass");
        let mut rules = rules.clone();
        if rng.once_in(once) {
            let number = 1 + rng.below(6) as u32;
            rules.table = damaged_table(rng, &table, number);
        }
        if rng.once_in(once) {
            rules.start = bad_start(rng, table.records.len());
        }
        rules
    };
    for once in [1_000_000, 8, 3] {
        let (one, two) = (wrong(rng, by_lines, once), wrong(rng, by_runs, once));
        let rooms = any_rooms(rng, rooms);
        h.put(page(&one, &two, text, rooms), rng.choose(&[out, out, out.saturating_sub(1), 0]));
    }
    let (one, two) = (wrong(rng, by_lines, 1), wrong(rng, by_runs, 1));
    h.put(page(&one, by_runs, text, rooms), out);
    h.put(page(by_lines, &two, text, rooms), out);
}

/// Pages of one random table's lines: as they are, with a line that is changed or
/// too long, and with very many lines.
pub fn round(h: &mut Harness, rng: &mut Rng, size: Size) {
    let (mut table, mut k) = start(rng, size);
    more_tags(rng, &mut table);
    if k < 250 && rng.once_in(3) {
        (table, k) = (with_blanks(&table, k), k + 3);
    }
    let by_lines = Rules { table: table.bytes(), start: k as u64 };
    let mut pool = vec![];
    for _ in 0..1 + rng.below(4) {
        let mut line = grown(rng, &table, k, size).map_or_else(Vec::new, |v| v.line());
        line.truncate(MOST_LINES);
        if size != Size::Long {
            pool.extend(near_line(&mut h.reader, (&table, k), rng, &line));
        }
        pool.push(line);
    }
    let few = rng.below(9);
    let most =
        if size == Size::Long { few / 2 } else { rng.choose(&[few, few, few, 40, 254, 255]) };
    let mut text = random_page(rng, &pool, most);
    let found = least_rooms(&mut h.reader, (&table, k), &text);
    let by_runs = page_rules(rng, &found.map_or(vec![], |found| found.0));
    put_mixed(h, rng, &by_lines, &by_runs, &text);
    put_least(h, &by_lines, &by_runs, &text);
    if size != Size::Long {
        each_room(h, &by_lines, &by_runs, &text);
    }
    text = changed_line(rng, &text);
    if rng.once_in(6) {
        let place = rng.below(text.len() + 1);
        let piece = rng.choose(&[&b"\n"[..], b"\n\n", &[0x61; 256], &[10; 256]]);
        text.splice(place..place, piece.iter().copied());
    }
    put_mixed(h, rng, &by_lines, &by_runs, &text);
}

/// Short pages cut at each byte.
pub fn torn(h: &mut Harness) {
    let text = b"ab\na\n\n\nabc\nbc\nbc\na";
    let by_runs = each_class();
    for len in 0..=text.len() {
        h.from(format!("the first {len} bytes of a page"));
        each_room(h, &last(T1), &by_runs, &text[..len]);
    }
    h.from("255 lines and 256");
    for count in [MOST_LINES, MOST_LINES + 1] {
        each_room(h, &two_names(1, 2), &by_runs, &b"ab\n".repeat(count));
    }
}
