//! A line that is still being typed, request 7 of document 02: the struct as C
//! lends it, the three calls, and the two facts by derivatives.
//!
//! The derivatives are Brzozowski's, on expressions of their own kind. An Or is
//! the set of its sides, and (r + s) · t is r · t + s · t, so that there are
//! finitely many. Nothing else is put in another form: whether an expression
//! spells any line is found at the end, from what it is made of.

use crate::calls::{open, work_need};
use crate::table::{pack, refuse, Kind, Letter, Refusal, Table};
use std::collections::HashMap;

pub const MOST_TABLE: usize = 1020;
pub const MOST_BYTES: usize = 255;

/// The struct of C, with its padding as fields.
#[repr(C)]
#[derive(Clone, PartialEq, Eq)]
pub struct Line {
    pub table: [u8; MOST_TABLE],
    pub gap: [u8; 4],
    pub table_len: usize,
    pub start: u64,
    pub bytes: [u8; MOST_BYTES],
    pub end: u8,
    pub count: usize,
}

impl Line {
    /// All bytes of the struct, padding too, are this one.
    pub fn filled(byte: u8) -> Self {
        let number = u64::from_ne_bytes([byte; 8]);
        Line {
            table: [byte; MOST_TABLE],
            gap: [byte; 4],
            table_len: number as usize,
            start: number,
            bytes: [byte; MOST_BYTES],
            end: byte,
            count: number as usize,
        }
    }

    /// The name of the first field, padding left out, that is another.
    pub fn differs(&self, other: &Line) -> Option<&'static str> {
        let fields = [
            (self.table == other.table, "table"),
            (self.table_len == other.table_len, "table_len"),
            (self.start == other.start, "start"),
            (self.bytes == other.bytes, "bytes"),
            (self.count == other.count, "count"),
        ];
        fields.iter().find(|field| !field.0).map(|field| field.1)
    }
}

pub fn trace_live_new(line: &mut Line, table: &[u8], start: u64) -> u64 {
    let opened = open(table, start);
    let (held, number) = match &opened {
        Ok((_, k)) => (table, *k as u64),
        Err(_) => (&[0; 4][..], 0),
    };
    line.table = [0; MOST_TABLE];
    line.table[..held.len()].copy_from_slice(held);
    line.table_len = held.len();
    line.start = number;
    line.bytes = [0; MOST_BYTES];
    line.count = 0;
    pack(opened.map(|(table, _)| table.records.len() as u64))
}

#[derive(Clone, Copy, PartialEq, Eq, Debug)]
pub enum Call {
    Add(u8),
    TakeBack,
}

impl Call {
    /// How many bytes a line of so many has after the call.
    pub fn count(self, count: usize) -> usize {
        match self {
            Call::Add(_) => count.saturating_add(1),
            Call::TakeBack => count.saturating_sub(1),
        }
    }

    /// The same on the bare list of bytes.
    pub fn on_list(self, list: &mut Vec<u8>) {
        match self {
            Call::Add(byte) => list.push(byte),
            Call::TakeBack => drop(list.pop()),
        }
    }

    fn on_line(self, line: &mut Line) {
        match self {
            Call::Add(byte) => line.bytes[line.count] = byte,
            Call::TakeBack => line.bytes[line.count - 1] = 0,
        }
        line.count = self.count(line.count);
    }
}

/// Whether bytes have a reading by record k of a table, and whether some bytes
/// behind them give them one.
pub type Facts<'a> = &'a mut dyn FnMut(&Table, usize, &[u8]) -> (bool, bool);

/// Add and Take back.
pub fn trace_live_call(line: &mut Line, call: Call, work_len: usize, facts: Facts) -> u64 {
    pack(altered(line, call, work_len, facts))
}

fn altered(line: &mut Line, call: Call, work_len: usize, facts: Facts) -> Result<u64, Refusal> {
    let Some(table) = line.table.get(..line.table_len) else { return refuse(1, 0) };
    let (table, k) = open(table, line.start)?;
    if line.count > MOST_BYTES {
        return refuse(7, 0);
    }
    match call {
        Call::Add(_) if line.count == MOST_BYTES => return refuse(7, 0),
        Call::TakeBack if line.count == 0 => return refuse(19, 0),
        _ => {}
    }
    if work_len < work_need(table.records.len(), call.count(line.count)) {
        return refuse(10, 0);
    }
    call.on_line(line);
    let (reads, extends) = facts(&table, k, &line.bytes[..line.count]);
    Ok(u64::from(reads) + 2 * u64::from(extends))
}

/// The facts by derivatives; those by the last table are kept.
#[derive(Default)]
pub struct Typist {
    last: Option<(Table, usize, Derivatives)>,
}

impl Typist {
    pub fn facts(&mut self, table: &Table, k: usize, bytes: &[u8]) -> (bool, bool) {
        if self.last.as_ref().is_none_or(|last| last.0 != *table || last.1 != k) {
            self.last = Some((table.clone(), k, Derivatives::new(table, k)));
        }
        let derivatives = &mut self.last.as_mut().expect("the table at hand").2;
        let r = bytes.iter().fold(derivatives.whole, |r, &c| derivatives.derive(r, c));
        (derivatives.nullable[r], derivatives.spells[r])
    }
}

type Name = usize;

#[derive(Clone, PartialEq, Eq, Hash)]
enum Expr {
    Empty,
    Letter(Letter),
    /// The sides, in the order of their names; none of them is an Or.
    Or(Vec<Name>),
    Seq(Name, Name),
    Star(Name),
}

/// The expressions met, each once, and for each whether it spells the empty
/// line, and whether it spells any.
#[derive(Default)]
struct Derivatives {
    exprs: Vec<Expr>,
    nullable: Vec<bool>,
    spells: Vec<bool>,
    names: HashMap<Expr, Name>,
    derived: HashMap<(Name, u8), Name>,
    whole: Name,
}

impl Derivatives {
    fn new(table: &Table, k: usize) -> Self {
        let mut derivatives = Derivatives::default();
        derivatives.whole = derivatives.record(table, k);
        derivatives
    }

    fn record(&mut self, table: &Table, k: usize) -> Name {
        match table.kind(k) {
            Kind::Nothing => self.or(&[]),
            Kind::Empty => self.name(Expr::Empty),
            Kind::Letter(letter) => self.name(Expr::Letter(letter)),
            Kind::Or(a, b) => {
                let sides = [self.record(table, a), self.record(table, b)];
                self.or(&sides)
            }
            Kind::Seq(a, b) => {
                let (a, b) = (self.record(table, a), self.record(table, b));
                self.seq(a, b)
            }
            Kind::Star(a) => {
                let a = self.record(table, a);
                self.name(Expr::Star(a))
            }
        }
    }

    fn name(&mut self, expr: Expr) -> Name {
        if let Some(&name) = self.names.get(&expr) {
            return name;
        }
        let (nullable, spells) = match &expr {
            Expr::Empty | Expr::Star(_) => (true, true),
            Expr::Letter(letter) => (false, (0..=255).any(|c| letter.holds(c))),
            Expr::Or(sides) => {
                (sides.iter().any(|&r| self.nullable[r]), sides.iter().any(|&r| self.spells[r]))
            }
            Expr::Seq(a, b) => {
                (self.nullable[*a] && self.nullable[*b], self.spells[*a] && self.spells[*b])
            }
        };
        self.exprs.push(expr.clone());
        self.nullable.push(nullable);
        self.spells.push(spells);
        self.names.insert(expr, self.exprs.len() - 1);
        self.exprs.len() - 1
    }

    /// The sides of an expression, itself where it is no Or.
    fn sides(&self, r: Name) -> Vec<Name> {
        match &self.exprs[r] {
            Expr::Or(sides) => sides.clone(),
            _ => vec![r],
        }
    }

    /// The Or of these; of one side it is that side, of none it spells nothing.
    fn or(&mut self, list: &[Name]) -> Name {
        let mut sides: Vec<Name> = list.iter().flat_map(|&r| self.sides(r)).collect();
        sides.sort_unstable();
        sides.dedup();
        match sides[..] {
            [r] => r,
            _ => self.name(Expr::Or(sides)),
        }
    }

    fn seq(&mut self, a: Name, b: Name) -> Name {
        let sides = self.sides(a);
        let list: Vec<Name> = sides.into_iter().map(|r| self.name(Expr::Seq(r, b))).collect();
        self.or(&list)
    }

    /// r \ c
    fn derive(&mut self, r: Name, c: u8) -> Name {
        if let Some(&d) = self.derived.get(&(r, c)) {
            return d;
        }
        let d = match self.exprs[r].clone() {
            Expr::Empty => self.or(&[]),
            Expr::Letter(letter) if letter.holds(c) => self.name(Expr::Empty),
            Expr::Letter(_) => self.or(&[]),
            Expr::Or(sides) => {
                let list: Vec<Name> = sides.into_iter().map(|r| self.derive(r, c)).collect();
                self.or(&list)
            }
            Expr::Seq(a, b) => {
                let inside = self.derive(a, c);
                let first = self.seq(inside, b);
                if self.nullable[a] {
                    let second = self.derive(b, c);
                    self.or(&[first, second])
                } else {
                    first
                }
            }
            Expr::Star(a) => {
                let inside = self.derive(a, c);
                self.seq(inside, r)
            }
        };
        self.derived.insert((r, c), d);
        d
    }
}

#[cfg(test)]
mod tests {
    use super::*;
    use crate::random::{all_lines, all_tables, star_nest};
    use crate::relation;

    /// The facts by reading: the line, and the line with all that may follow. 2
    /// bytes are enough: to join 3 letters a table has 5 records.
    #[test]
    fn facts_by_reading() {
        let lines = all_lines(5);
        let mut typist = Typist::default();
        let (mut only, mut neither) = (0, 0);
        for records in 1..=4 {
            all_tables(records, &mut |table| {
                let read: Vec<bool> = lines
                    .iter()
                    .map(|line| relation::read(table, records - 1, line).is_some())
                    .collect();
                for (i, line) in lines.iter().enumerate().filter(|(_, line)| line.len() <= 3) {
                    let extends = lines.iter().zip(&read).any(|(l, &r)| r && l.starts_with(line));
                    let facts = typist.facts(table, records - 1, line);
                    assert_eq!(facts, (read[i], extends), "{:?} {line:?}", table.bytes());
                    only += u32::from(extends && !read[i]);
                    neither += u32::from(!extends);
                }
            });
        }
        assert!(only > 500 && neither > 500, "{only} and {neither}");
    }

    #[test]
    fn order_of_refusals() {
        let mut typist = Typist::default();
        let mut line = Line::filled(9);
        let mut facts = |t: &Table, k: usize, bytes: &[u8]| typist.facts(t, k, bytes);
        let mut put = |line: &Line, call, work| {
            trace_live_call(&mut line.clone(), call, work, &mut facts) >> 32
        };
        assert_eq!(trace_live_new(&mut line, &[1, 0, 0, 0], 1), 9 << 32);
        assert_eq!((line.table_len, line.start, line.count), (4, 0, 0));
        assert_eq!(put(&line, Call::TakeBack, 0), 19);
        line.count = 255;
        assert_eq!(put(&line, Call::Add(0), 0), 7);
        assert_eq!(put(&line, Call::TakeBack, 0), 10);
        line.count = 256;
        assert_eq!(put(&line, Call::TakeBack, 0), 7);
        line.start = 1;
        assert_eq!(put(&line, Call::TakeBack, 0), 9);
        line.table[0] = 7;
        assert_eq!(put(&line, Call::Add(1), 0), 2);
        line.table_len = 1021;
        assert_eq!(put(&line, Call::Add(1), 0), 1);
    }

    /// The deepest nest and the longest line stay small.
    #[test]
    fn few_derivatives() {
        let table = star_nest(Letter::range(0x61, 0x61), 255, 0);
        let mut typist = Typist::default();
        assert_eq!(typist.facts(&table, 254, &[0x61; 255]), (true, true));
        assert_eq!(typist.facts(&table, 254, &[0x62]), (false, false));
    }
}
