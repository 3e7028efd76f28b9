//! Random tables, readings, lines, pages, token lists and damages from a fixed
//! seed.

use crate::notation::SPECIAL;
use crate::pairs::{names, Pair};
use crate::relation;
use crate::table::{check, Kind, Letter, Record, Table};
use crate::value::{Value, RECORD};
use std::rc::Rc;

/// xorshift64*
pub struct Rng(u64);

impl Rng {
    pub fn new(seed: u64) -> Self {
        let mut rng = Rng(seed.wrapping_mul(0x9e37_79b9_7f4a_7c15) ^ 0x5851_f42d_4c95_7f2d | 1);
        for _ in 0..8 {
            rng.draw();
        }
        rng
    }

    fn draw(&mut self) -> u64 {
        self.0 ^= self.0 >> 12;
        self.0 ^= self.0 << 25;
        self.0 ^= self.0 >> 27;
        self.0.wrapping_mul(0x2545_f491_4f6c_dd1d)
    }

    /// A number below the bound.
    pub fn below(&mut self, bound: usize) -> usize {
        ((self.draw() >> 33) % bound.max(1) as u64) as usize
    }

    pub fn byte(&mut self) -> u8 {
        (self.draw() >> 40) as u8
    }

    /// True once in so many times.
    pub fn once_in(&mut self, times: usize) -> bool {
        self.below(times) == 0
    }

    pub fn choose<T: Clone>(&mut self, list: &[T]) -> T {
        list[self.below(list.len())].clone()
    }
}

/// A few bytes that lie together, often at an end of the byte range.
fn alphabet(rng: &mut Rng) -> (u8, u8) {
    let count = rng.choose(&[1u8, 2, 2, 2, 3, 4]);
    let low = rng.choose(&[0x61, 0x61, 0x61, 0, 1, 0x7f, 255 - (count - 1)]);
    (low, low + (count - 1))
}

fn leaf(rng: &mut Rng, low: u8, high: u8) -> Kind {
    match rng.below(40) {
        0 => Kind::Nothing,
        1..=7 => Kind::Empty,
        _ => Kind::Letter(letter(rng, low, high)),
    }
}

/// A Range or an Other, with bounds at both ends of the byte range, or at,
/// around or inside those of the alphabet.
fn letter(rng: &mut Rng, low: u8, high: u8) -> Letter {
    let (a, b) = match rng.below(32) {
        0 => (0, 255),
        1..=4 => (low, high),
        5 | 6 => {
            let (below, above) = (rng.below(3) as u8, rng.below(3) as u8);
            (low.saturating_sub(below), high.saturating_add(above))
        }
        _ => {
            let count = usize::from(high - low) + 1;
            let a = low + rng.below(count) as u8;
            (a, if rng.once_in(6) { high } else { a })
        }
    };
    Letter { a, b, outside: rng.once_in(3) }
}

/// A byte that the letter holds, most often one near its bounds.
fn byte_of(rng: &mut Rng, letter: Letter) -> u8 {
    let near = letter.a.saturating_sub(2)..=letter.b.saturating_add(2);
    let bytes = if rng.once_in(4) { 0..=255 } else { near };
    let held: Vec<u8> = bytes.filter(|&c| letter.holds(c)).collect();
    rng.choose(&held)
}

/// A table that passes Check, of the given number of records. The pool holds
/// the records that nobody has named yet.
pub fn table(rng: &mut Rng, records: usize) -> Table {
    let (low, high) = alphabet(rng);
    let style = rng.below(6);
    let tag_in = rng.choose(&[1, 2, 4, 8, 30, 1_000_000]);
    // A tag on a Seq hides the tagged parts that lie beside each other in it.
    let seq_tags = rng.once_in(2);
    let mut pool: Vec<usize> = Vec::new();
    let mut list = Vec::new();
    for k in 0..records {
        let left = records - k;
        let take = |rng: &mut Rng, pool: &mut Vec<usize>| match style {
            0 | 1 => pool.swap_remove(rng.below(pool.len())),
            2 => pool.remove(0),
            _ => pool.pop().expect("a record nobody named"),
        };
        let star_in = if style == 5 { 2 } else { 5 };
        let kind = if pool.len() > 1 && (pool.len() > left || rng.below(100) < 45) {
            let a = take(rng, &mut pool);
            let b = take(rng, &mut pool);
            let (a, b) = if rng.once_in(2) { (a, b) } else { (b, a) };
            if rng.once_in(2) {
                Kind::Or(a, b)
            } else {
                Kind::Seq(a, b)
            }
        } else if !pool.is_empty() && rng.once_in(star_in) {
            Kind::Star(take(rng, &mut pool))
        } else {
            leaf(rng, low, high)
        };
        let may_tag = seq_tags || !matches!(kind, Kind::Seq(..));
        let tagged = may_tag && rng.once_in(tag_in);
        let tag = if tagged { rng.choose(&[1, 2, 7, 255, (k % 255) as u8 + 1]) } else { 0 };
        list.push(Record { kind, tag });
        pool.push(k);
    }
    let table = Table { records: list };
    debug_assert_eq!(check(&table.bytes()), Ok(table.clone()));
    table
}

/// A table as Compile writes it, of the given number of records: each side
/// whole, left before right, the root last.
pub fn post_order(rng: &mut Rng, records: usize) -> Table {
    let mut table = Table { records: vec![] };
    let (style, star_in, tag_in) = (rng.below(4), rng.choose(&[2, 5, 30]), rng.choose(&[2, 6, 30]));
    side(rng, records, style, star_in, tag_in, &mut table);
    debug_assert!(records > 255 || check(&table.bytes()) == Ok(table.clone()));
    table
}

/// One side of so many records; gives its own record. The styles: combs to the
/// left, to the right, and sides of any sizes.
fn side(
    rng: &mut Rng,
    records: usize,
    style: usize,
    star_in: usize,
    tag_in: usize,
    table: &mut Table,
) -> usize {
    let kind = if records == 1 {
        match rng.below(8) {
            0 => Kind::Empty,
            1 => Kind::Letter(range(rng)),
            _ => {
                let any = rng.byte();
                let c = rng.choose(&[b'a', b'a', b'b', b'0', b'1', b'-', b'(', b'|', b'\\', any]);
                Kind::Letter(Letter::range(c, c))
            }
        }
    } else if records == 2 || rng.once_in(star_in) {
        Kind::Star(side(rng, records - 1, style, star_in, tag_in, table))
    } else {
        let left = match style {
            0 => records - 2,
            1 => 1,
            _ => 1 + rng.below(records - 2),
        };
        let a = side(rng, left, style, star_in, tag_in, table);
        let b = side(rng, records - 1 - left, style, star_in, tag_in, table);
        rng.choose(&[Kind::Or(a, b), Kind::Seq(a, b)])
    };
    let tag = if rng.once_in(tag_in) { rng.choose(&[1, 9, 10, 99, 100, 255]) } else { 0 };
    table.records.push(Record { kind, tag });
    table.records.len() - 1
}

fn range(rng: &mut Rng) -> Letter {
    let (a, b) = if rng.once_in(2) {
        (rng.choose(b"#()*-[\\]|"), rng.choose(b"#()*-[\\]|"))
    } else {
        (rng.byte(), rng.byte())
    };
    Letter::range(a.min(b), a.max(b))
}

/// A text that stands for the table. Once in so many times there is a pair of
/// parentheses or an escape that it could do without.
pub fn notation(rng: &mut Rng, table: &Table, noise: usize) -> Vec<u8> {
    let mut text = Vec::new();
    print(rng, table, table.records.len() - 1, 0, noise, &mut text);
    text
}

/// Prints a record where what binds at least so tightly can stand: 0 for Or, 1
/// for Seq, 2 for an item.
fn print(rng: &mut Rng, table: &Table, k: usize, place: usize, noise: usize, text: &mut Vec<u8>) {
    let Record { kind, tag } = table.records[k];
    let binds = match kind {
        Kind::Or(..) => 0,
        Kind::Seq(..) => 1,
        _ => 2,
    };
    let wraps = |rng: &mut Rng| (0..4).take_while(|_| rng.once_in(noise)).count();
    let must = binds < if tag == 0 { place } else { 2 };
    let inside = wraps(rng).max(usize::from(must));
    let around = if tag == 0 { 0 } else { wraps(rng) };
    text.extend(vec![b'('; inside + around]);
    match kind {
        Kind::Nothing => unreachable!("Nothing has no text"),
        Kind::Empty => text.extend(b"()"),
        Kind::Letter(Letter { a, b, .. }) => {
            if a != b || rng.once_in(4 * noise) {
                text.extend([b'[', a, b'-', b, b']']);
            } else if SPECIAL.contains(&a) || rng.once_in(noise) {
                text.extend([b'\\', a]);
            } else {
                text.push(a);
            }
        }
        Kind::Or(a, b) => {
            print(rng, table, a, 0, noise, text);
            text.push(b'|');
            print(rng, table, b, 1, noise, text);
        }
        Kind::Seq(a, b) => {
            print(rng, table, a, 1, noise, text);
            print(rng, table, b, 2, noise, text);
        }
        Kind::Star(a) => {
            print(rng, table, a, 2, noise, text);
            text.push(b'*');
        }
    }
    text.extend(vec![b')'; inside]);
    if tag != 0 {
        text.extend(format!("#{tag:03}").bytes());
    }
    text.extend(vec![b')'; around]);
}

/// A text by one small change, often near its end.
pub fn damaged_text(rng: &mut Rng, text: &[u8]) -> Vec<u8> {
    let mut text = text.to_vec();
    let len = text.len();
    let near = if rng.once_in(3) { rng.below(len.min(8) + 1) } else { rng.below(len + 1) };
    let place = len - near;
    let any = rng.byte();
    let byte = rng.choose(&[b'a', b'0', b'1', b'2', b'5', b'9', b'-', b'(', b')', b'|', any]);
    let byte = if rng.once_in(3) { rng.choose(SPECIAL) } else { byte };
    match rng.below(7) {
        0 | 1 if place < len => text[place] = byte,
        2 if place < len => {
            text.remove(place);
        }
        3 if place + 1 < len => text.swap(place, place + 1),
        4 => text.truncate(place),
        5 => {
            let word =
                rng.choose(&[&b"#001"[..], b"#256", b"#12", b"[a-b]", b"[b-a]", b"()", b"\\"]);
            text.splice(place..place, word.iter().copied());
        }
        _ => text.insert(place, byte),
    }
    text
}

/// Grows random values of a table's records.
pub struct Grower<'a> {
    table: &'a Table,
    /// The records that spell anything at all.
    any: Vec<bool>,
    /// The records that spell a line of one byte or more.
    some: Vec<bool>,
}

/// How far to grow: Stars get fewer iterations once the room, counted in
/// bytes, is used up; an eager one has as many as it can until then.
pub struct Room {
    pub bytes: isize,
    pub eager: bool,
}

impl<'a> Grower<'a> {
    pub fn new(table: &'a Table) -> Self {
        let (mut any, mut some): (Vec<bool>, Vec<bool>) = (vec![], vec![]);
        for record in &table.records {
            let (x, y) = match record.kind {
                Kind::Nothing => (false, false),
                Kind::Empty => (true, false),
                Kind::Letter(letter) => {
                    let held = (0..=255).any(|c| letter.holds(c));
                    (held, held)
                }
                Kind::Or(a, b) => (any[a] || any[b], some[a] || some[b]),
                Kind::Seq(a, b) => {
                    let both = any[a] && any[b];
                    (both, both && (some[a] || some[b]))
                }
                Kind::Star(a) => (true, some[a]),
            };
            any.push(x);
            some.push(y);
        }
        Grower { table, any, some }
    }

    /// Whether record k spells any line.
    pub fn spells_some(&self, k: usize) -> bool {
        self.any[k]
    }

    fn can(&self, k: usize, full: bool) -> bool {
        if full {
            self.some[k]
        } else {
            self.any[k]
        }
    }

    /// A random value of record k, None if it spells no line.
    pub fn value(&self, rng: &mut Rng, k: usize, room: &mut Room) -> Option<Value> {
        self.any[k].then(|| self.grow(rng, k, false, room))
    }

    /// A value of record k, which has one; of one byte or more if `full`.
    fn grow(&self, rng: &mut Rng, k: usize, full: bool, room: &mut Room) -> Value {
        match self.table.kind(k) {
            Kind::Nothing => unreachable!("Nothing has no value"),
            Kind::Empty => Value::Void,
            Kind::Letter(letter) => {
                room.bytes -= 1;
                Value::Byte(byte_of(rng, letter))
            }
            Kind::Or(r1, r2) => {
                let left = self.can(r1, full) && (!self.can(r2, full) || rng.once_in(2));
                if left {
                    Value::Left(Rc::new(self.grow(rng, r1, full, room)))
                } else {
                    Value::Right(Rc::new(self.grow(rng, r2, full, room)))
                }
            }
            Kind::Seq(r1, r2) => {
                let first_full = full && self.some[r1] && (!self.some[r2] || rng.once_in(2));
                let v1 = self.grow(rng, r1, first_full, room);
                let v2 = self.grow(rng, r2, full && !first_full, room);
                Value::Seq(Rc::new(v1), Rc::new(v2))
            }
            Kind::Star(r) => {
                let wanted = match rng.below(8) {
                    _ if room.eager => 255,
                    0 => 0,
                    1..=3 => 1,
                    4 | 5 => 2,
                    6 => 1 + rng.below(6),
                    _ => 1 + rng.below(255),
                };
                let mut vs = Vec::new();
                while self.some[r] && vs.len() < 255 {
                    let must = full && vs.is_empty();
                    if !must && (vs.len() >= wanted || room.bytes <= 0) {
                        break;
                    }
                    vs.push(Rc::new(self.grow(rng, r, true, room)));
                }
                Value::Stars(vs)
            }
        }
    }
}

/// A reading of the line by record k with a random way at each choice.
pub fn rival(rng: &mut Rng, table: &Table, k: usize, line: &[u8]) -> Option<Value> {
    let lazy = rng.choose(&[1, 2, 4]);
    let mut pick = |ways: usize| if rng.once_in(lazy) { rng.below(ways) } else { 0 };
    relation::Reader::new(table, line).read(k, &mut pick)
}

/// A line by one small change.
pub fn changed_line(rng: &mut Rng, line: &[u8]) -> Vec<u8> {
    let mut line = line.to_vec();
    let place = rng.below(line.len() + 1);
    match rng.below(5) {
        0 if place < line.len() => line[place] = line[place].wrapping_add(rng.choose(&[1, 255, 2])),
        1 if place < line.len() => line[place] = rng.byte(),
        2 if place < line.len() => {
            line.remove(place);
        }
        3 => line.truncate(place),
        _ => {
            let c = if line.is_empty() { 0x61 } else { line[rng.below(line.len())] };
            line.insert(place, c);
        }
    }
    line
}

/// Tags some letters more, so that most lines have a token.
pub fn more_tags(rng: &mut Rng, table: &mut Table) {
    for record in &mut table.records {
        if matches!(record.kind, Kind::Letter(_)) && rng.once_in(3) {
            record.tag = rng.choose(&[1, 2, 10, 255]);
        }
    }
}

/// Lines of record k in any number, and blanks, which are in no token, between
/// them. The records behind k are left out.
pub fn with_blanks(table: &Table, k: usize) -> Table {
    let mut records = table.records[..=k].to_vec();
    let blank = Kind::Letter(Letter::range(0x20, 0x20));
    records
        .extend([blank, Kind::Or(k, k + 1), Kind::Star(k + 2)].map(|kind| Record { kind, tag: 0 }));
    Table { records }
}

/// A page of so many of these lines, now and then the same one again, with a
/// closing byte 10 or without.
pub fn page(rng: &mut Rng, lines: &[Vec<u8>], count: usize) -> Vec<u8> {
    let mut page = Vec::new();
    let mut line = rng.choose(lines);
    for _ in 0..count {
        if !rng.once_in(3) {
            line = rng.choose(lines);
        }
        page.extend(&line);
        page.push(10);
    }
    if rng.once_in(3) {
        page.pop();
    }
    page
}

/// A start number outside a table of so many records.
pub fn bad_start(rng: &mut Rng, records: usize) -> u64 {
    let m = records as u64;
    let inside = rng.below(records) as u64;
    rng.choose(&[m, m + 1, 255.max(m), 256, 256 + inside, 1 << 32, (1 << 32) + inside, u64::MAX])
}

/// A table with one fault, of the kind that the refusal number names. A table
/// where the fault can't be made is given back changed in some other way.
pub fn damaged_table(rng: &mut Rng, table: &Table, number: u32) -> Vec<u8> {
    let mut bytes = table.bytes();
    let m = table.records.len();
    let k = rng.below(m);
    let at = 4 * k;
    match number {
        1 => {
            let len = bytes.len();
            match rng.below(4) {
                0 => bytes.truncate(0),
                1 => bytes.truncate(len - 1 - rng.below(3)),
                2 => bytes.extend(vec![0; 1 + rng.below(3)]),
                _ => bytes.extend([1, 0, 0, 0].repeat(256 - m)),
            }
        }
        2 => bytes[at] = rng.choose(&[7, 8, 128, 255]),
        3 => {
            bytes[at] = rng.choose(&[0, 1, 5]);
            let field = if bytes[at] == 5 { 2 } else { 1 + rng.below(2) };
            bytes[at + 1] = bytes[at + 1].min(k.saturating_sub(1) as u8);
            bytes[at + field] = rng.choose(&[1, 255, 0x61]);
        }
        4 => {
            let a = 1 + rng.below(255) as u8;
            let b = rng.below(usize::from(a)) as u8;
            bytes[at..at + 3].copy_from_slice(&[rng.choose(&[2, 6]), a, b]);
        }
        5 => {
            let child = rng.choose(&[k, k + 1, 255]).min(255) as u8;
            let kind = rng.choose(&[3, 4, 5]);
            let field = if kind == 5 { 1 } else { 1 + rng.below(2) };
            bytes[at..at + 3].copy_from_slice(&[kind, 0, if kind == 5 { 0 } else { 1 }]);
            bytes[at + field] = child;
        }
        _ => {
            // Name a child again: one that is named already, or one twice.
            let named: Vec<usize> =
                table.records[..k].iter().flat_map(|r| r.kind.children()).collect();
            let child = if named.is_empty() { 0 } else { rng.choose(&named) } as u8;
            let kind = rng.choose(&[3, 4, 5]);
            let other = rng.below(k.max(1)) as u8;
            let fields = match (kind, rng.below(3)) {
                (5, _) => [5, child, 0],
                (_, 0) => [kind, child, other],
                (_, 1) => [kind, other, child],
                _ => [kind, other, other],
            };
            bytes[at..at + 3].copy_from_slice(&fields);
        }
    }
    bytes
}

/// A reading with one byte changed, cut short, extended, or a count, a length,
/// a record number or a byte of the line off by one.
pub fn damaged_reading(rng: &mut Rng, reading: &[u8]) -> Vec<u8> {
    let mut bytes = reading.to_vec();
    let len = bytes.len();
    match rng.below(12) {
        0 | 1 if len > 0 => {
            let place = rng.below(len);
            bytes[place] ^= 1 << rng.below(8);
        }
        2 if len > 0 => {
            let place = rng.below(len);
            bytes[place] = rng.choose(&[0, 1, 2, 3, 4, 5, 6, 255, 0x61, 0x62]);
        }
        3 if len > 0 => bytes.truncate(len - 1 - rng.below(RECORD.min(len))),
        4 if len >= RECORD => bytes.truncate(len - RECORD),
        5 => bytes.truncate(rng.below(len + 1)),
        6 => {
            let more = 1 + rng.below(2 * RECORD);
            bytes.extend((0..more).map(|_| rng.below(6) as u8));
        }
        7 if len >= RECORD => bytes.extend_from_within(len - RECORD..),
        8 if len >= RECORD => {
            let at = RECORD * rng.below(len / RECORD) + 2 + rng.below(2);
            bytes[at] = bytes[at].wrapping_add(rng.choose(&[1, 255, 128]));
        }
        _ => {
            let kind = rng.choose(&[1, 1, 5]);
            let records = 0..len / RECORD;
            let places: Vec<usize> = records.filter(|i| bytes[RECORD * i] == kind).collect();
            if places.is_empty() {
                bytes.extend([0; RECORD]);
            } else {
                let at = RECORD * rng.choose(&places) + 1;
                bytes[at] = bytes[at].wrapping_add(rng.choose(&[1, 255]));
            }
        }
    }
    bytes
}

/// The leaves that record k of a small table over the letters a and b can be:
/// Empty, and one for each set of the two. The set is held by a Range, or
/// Nothing, in even records and by an Other in odd ones; tables of one or two
/// records have both.
fn small_leaves(records: usize, k: usize) -> Vec<Kind> {
    let mut leaves = vec![Kind::Empty];
    if records < 3 || k % 2 == 0 {
        let ranges = [(0x61, 0x61), (0x62, 0x62), (0x61, 0x62)];
        leaves.push(Kind::Nothing);
        leaves.extend(ranges.map(|(a, b)| Kind::Letter(Letter::range(a, b))));
    }
    if records < 3 || k % 2 == 1 {
        let others = [(0, 255), (0x62, 0x62), (0x61, 0x61), (0x63, 255)];
        leaves.extend(others.map(|(a, b)| Kind::Letter(Letter::other(a, b))));
    }
    leaves
}

/// Visits all tables of exactly so many records over the letters a and b.
pub fn all_tables(records: usize, visit: &mut dyn FnMut(&Table)) {
    fn extend(table: &mut Table, pool: &[usize], left: usize, visit: &mut dyn FnMut(&Table)) {
        if left == 0 {
            return visit(table);
        }
        let k = table.records.len();
        let mut kinds = small_leaves(k + left, k);
        for &a in pool {
            kinds.push(Kind::Star(a));
            for &b in pool.iter().filter(|&&b| b != a) {
                kinds.extend([Kind::Or(a, b), Kind::Seq(a, b)]);
            }
        }
        for kind in kinds {
            let children = kind.children();
            let mut rest: Vec<usize> =
                pool.iter().copied().filter(|k| !children.contains(k)).collect();
            rest.push(k);
            table.records.push(Record { kind, tag: 0 });
            extend(table, &rest, left - 1, visit);
            table.records.pop();
        }
    }
    extend(&mut Table { records: vec![] }, &[], records, visit);
}

/// The table with tags of their own on the records whose bits are in the mask, and
/// on no other.
pub fn tagged(table: &Table, mask: usize) -> Table {
    let mut tagged = table.clone();
    for (i, record) in tagged.records.iter_mut().enumerate() {
        record.tag = if mask >> i & 1 == 1 { 10 + i as u8 } else { 0 };
    }
    tagged
}

/// All lines over the letters a and b of up to so many bytes.
pub fn all_lines(longest: usize) -> Vec<Vec<u8>> {
    lines_over(&[0x61, 0x62], longest)
}

/// All lines over these bytes of up to so many of them.
pub fn lines_over(bytes: &[u8], longest: usize) -> Vec<Vec<u8>> {
    let mut lines = vec![vec![]];
    let mut from = 0;
    for _ in 0..longest {
        let to = lines.len();
        for i in from..to {
            for &c in bytes {
                let mut line: Vec<u8> = lines[i].clone();
                line.push(c);
                lines.push(line);
            }
        }
        from = to;
    }
    lines
}

/// A nest of Stars over one letter with the given tag.
pub fn star_nest(letter: Letter, records: usize, tag: u8) -> Table {
    let mut list = vec![Record { kind: Kind::Letter(letter), tag }];
    list.extend((1..records).map(|k| Record { kind: Kind::Star(k - 1), tag: 0 }));
    Table { records: list }
}

/// Up to so many tokens, of a few names or of many. Offsets and lengths are any
/// bytes, and often a name.
pub fn token_list(rng: &mut Rng, most: usize) -> Vec<u8> {
    let few: Vec<u8> = (0..rng.choose(&[1, 2, 3, 5, 16, 64, 600])).map(|_| rng.byte()).collect();
    let count = rng.below(most + 1);
    (0..count).flat_map(|_| [rng.choose(&few), rng.choose(&few), rng.byte()]).collect()
}

/// Pairs for a token list: such as it keeps, the same with one broken in the
/// place of another, and any pairs.
pub fn pair_lists(rng: &mut Rng, tokens: &[u8]) -> Vec<Vec<Pair>> {
    let mut met: Vec<u8> = Vec::new();
    for name in names(tokens) {
        if !met.contains(&name) {
            met.push(name);
        }
    }
    let absent: Vec<u8> = (0..=255).filter(|name| !met.contains(name)).collect();
    let some = rng.below(65);
    let count = rng.choose(&[0, 1, 2, 3, 8, 63, 64, some]);
    let kept: Vec<Pair> = (0..count).map(|_| kept_pair(rng, &met, &absent)).collect();
    let mut lists = vec![kept.clone()];
    if count > 0 && !met.is_empty() {
        for _ in 0..2 {
            let mut broken = kept.clone();
            broken[rng.below(count)] = broken_pair(rng, &met, &absent);
            lists.push(broken);
        }
    }
    lists.push((0..count).map(|_| Pair { first: rng.byte(), second: rng.byte() }).collect());
    lists
}

/// A pair that a list keeps: by the names in the order in which they are met,
/// or with a second name that no token has.
fn kept_pair(rng: &mut Rng, met: &[u8], absent: &[u8]) -> Pair {
    if met.len() > 1 && (absent.is_empty() || !rng.once_in(6)) {
        let second = 1 + rng.below(met.len() - 1);
        return Pair { first: met[rng.below(second)], second: met[second] };
    }
    Pair { first: rng.byte(), second: rng.choose(absent) }
}

/// A pair that a list breaks: the first name is met later, or it is the second
/// name too, or no token has it.
fn broken_pair(rng: &mut Rng, met: &[u8], absent: &[u8]) -> Pair {
    let second = rng.below(met.len());
    let later = met[second + rng.below(met.len() - second)];
    let first = if rng.once_in(3) && !absent.is_empty() { rng.choose(absent) } else { later };
    Pair { first, second: met[second] }
}
