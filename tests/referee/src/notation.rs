//! The notation of document 02, request 3, by spans: which spans of a text are
//! items, rows and wholes, each by the rules of the grammar one by one, what
//! tree they stand for, and in how many ways. A text is in the grammar if it
//! is a whole from end to end. No state goes along the text: each rule looks
//! up the spans that end where its last part begins.

use crate::table::{Kind, Letter, Record, Table};

/// The longest text, in bytes.
pub const MOST: usize = 4096;

pub const SPECIAL: &[u8] = b"|*()[]\\#";

/// A span by its start: the tree it stands for, and in how many ways.
#[derive(Clone, Copy)]
struct Span {
    from: u32,
    tree: u32,
    ways: u32,
}

/// The spans with one end, each list by rising starts. `trees` counts the
/// trees of all earlier ends.
#[derive(Default)]
struct End {
    items: Vec<Span>,
    rows: Vec<Span>,
    wholes: Vec<Span>,
    trees: usize,
}

/// The spans of a text that grows and shrinks at its end.
pub struct Spans {
    text: Vec<u8>,
    ends: Vec<End>,
    /// A record's children are trees here, by number.
    trees: Vec<Record>,
    /// Every span, or only those from a start that a derivation of the text
    /// can use: rows from 0 or behind ( or |, wholes from 0 or behind (.
    every: bool,
    most_ways: u32,
}

impl Spans {
    pub fn every() -> Self {
        let ends = vec![End::default()];
        Spans { text: vec![], ends, trees: vec![], every: true, most_ways: 0 }
    }

    pub fn useful() -> Self {
        Spans { every: false, ..Spans::every() }
    }

    pub fn push(&mut self, byte: u8) {
        let trees = self.trees.len();
        self.text.push(byte);
        let items = self.items();
        let rows = self.rows(&items);
        let wholes = self.wholes(&rows);
        self.ends.push(End { items, rows, wholes, trees });
    }

    pub fn pop(&mut self) {
        self.text.pop().expect("a byte");
        let end = self.ends.pop().expect("its end");
        self.trees.truncate(end.trees);
    }

    pub fn text(&self) -> &[u8] {
        &self.text
    }

    /// The table of the text, None outside the grammar.
    pub fn table(&self) -> Option<Table> {
        let wholes = &self.ends[self.text.len()].wholes;
        let whole = wholes.first().filter(|whole| whole.from == 0)?;
        let mut table = Table { records: vec![] };
        self.write(whole.tree as usize, &mut table);
        Some(table)
    }

    /// The most ways in which any span was an item, a row or a whole. A span
    /// is a text of its own, so one way is all that the law allows.
    pub fn most_ways(&self) -> u32 {
        self.most_ways
    }

    fn tree(&mut self, kind: Kind, tag: u8) -> u32 {
        self.trees.push(Record { kind, tag });
        self.trees.len() as u32 - 1
    }

    /// Puts the spans in order, and those with one start together.
    fn sorted(&mut self, mut found: Vec<Span>) -> Vec<Span> {
        found.sort_by_key(|span| span.from);
        found.dedup_by(|again, kept| {
            let same = again.from == kept.from;
            if same {
                kept.ways = kept.ways.saturating_add(again.ways);
            }
            same
        });
        let most = found.iter().map(|span| span.ways).max();
        self.most_ways = self.most_ways.max(most.unwrap_or(0));
        found
    }

    fn items(&mut self) -> Vec<Span> {
        let mut found = Vec::new();
        let end = self.text.len();
        // A byte, a byte behind a backslash, a range, and ().
        let leaf = match self.text[..] {
            [.., c] if !SPECIAL.contains(&c) => Some((1, Kind::Letter(Letter::range(c, c)))),
            [.., b'(', b')'] => Some((2, Kind::Empty)),
            _ => None,
        };
        let escaped = match self.text[..] {
            [.., b'\\', c] => Some((2, Kind::Letter(Letter::range(c, c)))),
            _ => None,
        };
        let range = match self.text[..] {
            [.., b'[', p, b'-', q, b']'] if p <= q => Some((5, Kind::Letter(Letter::range(p, q)))),
            _ => None,
        };
        for (len, kind) in [leaf, escaped, range].into_iter().flatten() {
            let tree = self.tree(kind, 0);
            found.push(Span { from: (end - len) as u32, tree, ways: 1 });
        }
        // A whole in parentheses.
        if self.text[end - 1] == b')' {
            for whole in &self.ends[end - 1].wholes {
                if whole.from > 0 && self.text[whole.from as usize - 1] == b'(' {
                    found.push(Span { from: whole.from - 1, ..*whole });
                }
            }
        }
        // An item and a star.
        if self.text[end - 1] == b'*' {
            for i in 0..self.ends[end - 1].items.len() {
                let item = self.ends[end - 1].items[i];
                let tree = self.tree(Kind::Star(item.tree as usize), 0);
                found.push(Span { tree, ..item });
            }
        }
        // An item without a tag, and a tag.
        if let Some(tag) = tag_behind(&self.text) {
            for i in 0..self.ends[end - 4].items.len() {
                let item = self.ends[end - 4].items[i];
                let untagged = self.trees[item.tree as usize];
                if untagged.tag == 0 {
                    let tree = self.tree(untagged.kind, tag);
                    found.push(Span { tree, ..item });
                }
            }
        }
        self.sorted(found)
    }

    /// An item, or a row and an item.
    fn rows(&mut self, items: &[Span]) -> Vec<Span> {
        let mut found = Vec::new();
        for item in items {
            if self.every || matches!(self.byte_before(item.from), None | Some(b'(' | b'|')) {
                found.push(*item);
            }
            for i in 0..self.ends[item.from as usize].rows.len() {
                let row = self.ends[item.from as usize].rows[i];
                found.push(self.pair(Kind::Seq, row, *item));
            }
        }
        self.sorted(found)
    }

    /// A row, or a whole, a bar and a row.
    fn wholes(&mut self, rows: &[Span]) -> Vec<Span> {
        let mut found = Vec::new();
        for row in rows {
            if self.every || matches!(self.byte_before(row.from), None | Some(b'(')) {
                found.push(*row);
            }
            if self.byte_before(row.from) == Some(b'|') {
                let bar = row.from as usize - 1;
                for i in 0..self.ends[bar].wholes.len() {
                    let whole = self.ends[bar].wholes[i];
                    found.push(self.pair(Kind::Or, whole, *row));
                }
            }
        }
        self.sorted(found)
    }

    fn byte_before(&self, at: u32) -> Option<u8> {
        Some(self.text[(at as usize).checked_sub(1)?])
    }

    fn pair(&mut self, kind: fn(usize, usize) -> Kind, left: Span, right: Span) -> Span {
        let tree = self.tree(kind(left.tree as usize, right.tree as usize), 0);
        Span { from: left.from, tree, ways: left.ways.saturating_mul(right.ways) }
    }

    /// Writes a tree's records: its left side, its right side, its own.
    fn write(&self, tree: usize, table: &mut Table) -> usize {
        let Record { kind, tag } = self.trees[tree];
        let kind = match kind {
            Kind::Or(a, b) => Kind::Or(self.write(a, table), self.write(b, table)),
            Kind::Seq(a, b) => Kind::Seq(self.write(a, table), self.write(b, table)),
            Kind::Star(a) => Kind::Star(self.write(a, table)),
            leaf => leaf,
        };
        table.records.push(Record { kind, tag });
        table.records.len() - 1
    }
}

/// The tag that a text ends with.
fn tag_behind(text: &[u8]) -> Option<u8> {
    let [.., b'#', x, y, z] = *text else { return None };
    if ![x, y, z].iter().all(u8::is_ascii_digit) {
        return None;
    }
    let digits = std::str::from_utf8(&text[text.len() - 3..]).ok()?;
    digits.parse().ok().filter(|&tag| tag != 0)
}

/// The table of a text, of any number of records; None for a text outside the
/// grammar or over its limit.
pub fn compile(text: &[u8]) -> Option<Table> {
    if text.len() > MOST {
        return None;
    }
    let mut spans = Spans::useful();
    text.iter().for_each(|&c| spans.push(c));
    assert!(spans.most_ways() <= 1, "two groupings in {}", text.escape_ascii());
    spans.table()
}

#[cfg(test)]
mod tests {
    use super::*;
    use crate::random::{damaged_text, notation, post_order, Rng};

    #[test]
    fn limits() {
        assert_eq!(compile(&[b'a'; 4096]).expect("a table").records.len(), 8191);
        assert_eq!(compile(&[b'a'; 4097]), None);
        let nest = [vec![b'('; 2048], vec![b')'; 2048]].concat();
        assert_eq!(compile(&nest).expect("a table").bytes(), [1, 0, 0, 0]);
        assert_eq!(compile(&nest[1..]), None);
        let bars = b"a|".repeat(2048);
        assert_eq!(compile(&bars), None);
        assert_eq!(compile(&bars[..4095]).expect("a table").records.len(), 4095);
        assert_eq!(
            compile(&[&b"a"[..], &[b'*'; 4095]].concat()).expect("a table").records.len(),
            4096
        );
        assert!(compile(&b"\\(".repeat(2048)).is_some());
    }

    #[test]
    fn ways_are_counted() {
        let mut spans = Spans::every();
        let span = |from, ways| Span { from, tree: 0, ways };
        let found = spans.sorted(vec![span(3, 1), span(0, 2), span(3, 1), span(0, 1)]);
        let counts: Vec<(u32, u32)> = found.iter().map(|span| (span.from, span.ways)).collect();
        assert_eq!(counts, [(0, 3), (3, 2)]);
        assert_eq!(spans.most_ways(), 3);
    }

    /// The spans from useful starts give the tables that all spans give.
    #[test]
    fn useful_spans_are_enough() {
        let mut rng = Rng::new(6);
        let mut inside = 0;
        for _ in 0..20_000 {
            let bytes = rng.choose(&[&b"a|*()"[..], b"a(\\)|", b"a#01*", b"ab|*()[]-\\#01"]);
            let text: Vec<u8> = (0..rng.below(14)).map(|_| rng.choose(bytes)).collect();
            let mut spans = Spans::every();
            text.iter().for_each(|&c| spans.push(c));
            assert!(spans.most_ways() <= 1);
            assert_eq!(spans.table(), compile(&text));
            inside += u32::from(spans.table().is_some());
        }
        assert!(inside > 1000);
    }

    /// A table that is printed in the notation is compiled to itself. Of the
    /// damaged texts enough stand for another table, and enough for none.
    #[test]
    fn printed_and_back() {
        let mut rng = Rng::new(7);
        let (mut other, mut none) = (0, 0);
        for _ in 0..4000 {
            let records = 1 + rng.below(40);
            let table = post_order(&mut rng, records);
            let noise = rng.choose(&[2, 8, 1_000_000]);
            let text = notation(&mut rng, &table, noise);
            assert_eq!(compile(&text), Some(table.clone()), "{}", text.escape_ascii());
            match compile(&damaged_text(&mut rng, &text)) {
                None => none += 1,
                Some(damaged) => other += u32::from(damaged != table),
            }
        }
        assert!(other > 500 && none > 1000, "{other} others, {none} none");
    }
}
