//! The rules of the relation, read as they stand. Membership in L(k) is asked
//! of an automaton with two states for each record, run forward from a place
//! of the line or backward from one.

use crate::table::{Kind, Letter, Table};
use crate::value::Value;
use std::rc::Rc;

/// A move of the automaton: for free, or over one byte that a letter holds.
#[derive(Clone, Copy)]
enum Label {
    Free,
    Over(Letter),
}

type State = usize;

fn entry(k: usize) -> State {
    2 * k
}

fn exit(k: usize) -> State {
    2 * k + 1
}

struct Automaton {
    forward: Vec<Vec<(Label, State)>>,
    backward: Vec<Vec<(Label, State)>>,
}

impl Automaton {
    fn new(table: &Table) -> Self {
        let states = 2 * table.records.len();
        let mut automaton =
            Automaton { forward: vec![vec![]; states], backward: vec![vec![]; states] };
        for k in 0..table.records.len() {
            automaton.record(table, k);
        }
        automaton
    }

    fn link(&mut self, from: State, label: Label, to: State) {
        self.forward[from].push((label, to));
        self.backward[to].push((label, from));
    }

    fn record(&mut self, table: &Table, k: usize) {
        use Label::{Free, Over};
        match table.kind(k) {
            Kind::Nothing => {}
            Kind::Empty => self.link(entry(k), Free, exit(k)),
            Kind::Letter(letter) => self.link(entry(k), Over(letter), exit(k)),
            Kind::Or(a, b) => {
                for side in [a, b] {
                    self.link(entry(k), Free, entry(side));
                    self.link(exit(side), Free, exit(k));
                }
            }
            Kind::Seq(a, b) => {
                self.link(entry(k), Free, entry(a));
                self.link(exit(a), Free, entry(b));
                self.link(exit(b), Free, exit(k));
            }
            Kind::Star(a) => {
                self.link(entry(k), Free, exit(k));
                self.link(entry(k), Free, entry(a));
                self.link(exit(a), Free, entry(a));
                self.link(exit(a), Free, exit(k));
            }
        }
    }

    /// For each place p of the part, is the part up to p in L(k)? (at p)
    fn ends(&self, k: usize, part: &[u8]) -> Vec<bool> {
        run(&self.forward, entry(k), exit(k), part.iter().copied())
    }

    /// For each place p of the part, is the part from p in L(k)? (at p)
    fn starts(&self, k: usize, part: &[u8]) -> Vec<bool> {
        let mut answer = run(&self.backward, exit(k), entry(k), part.iter().rev().copied());
        answer.reverse();
        answer
    }

    fn spells(&self, k: usize, part: &[u8]) -> bool {
        self.ends(k, part)[part.len()]
    }
}

/// Runs over the bytes from one state; tells before each byte and at the end
/// whether the other state is reached. That other state is never left, so a
/// run of a record stays inside it: no record is a child twice.
fn run(
    moves: &[Vec<(Label, State)>],
    from: State,
    to: State,
    bytes: impl Iterator<Item = u8>,
) -> Vec<bool> {
    let close = |mut open: Vec<State>| {
        let mut held = vec![false; moves.len()];
        let mut list = Vec::new();
        while let Some(state) = open.pop() {
            if held[state] {
                continue;
            }
            held[state] = true;
            list.push(state);
            if state != to {
                for &(label, next) in &moves[state] {
                    if let Label::Free = label {
                        open.push(next);
                    }
                }
            }
        }
        (held[to], list)
    };
    let (mut reached, mut states) = close(vec![from]);
    let mut answer = vec![reached];
    for c in bytes {
        let mut next = Vec::new();
        for &state in states.iter().filter(|&&state| state != to) {
            for &(label, after) in &moves[state] {
                match label {
                    Label::Over(letter) if letter.holds(c) => next.push(after),
                    _ => {}
                }
            }
        }
        (reached, states) = if next.is_empty() { (false, next) } else { close(next) };
        answer.push(reached);
    }
    answer
}

/// Which lines the records of a table spell.
pub struct Spelling(Automaton);

impl Spelling {
    pub fn new(table: &Table) -> Self {
        Spelling(Automaton::new(table))
    }

    pub fn spells(&self, k: usize, line: &[u8]) -> bool {
        self.0.spells(k, line)
    }
}

/// Chooses among ways to go on, given best first, by their count.
pub type Pick<'a> = &'a mut dyn FnMut(usize) -> usize;

pub struct Reader<'a> {
    table: &'a Table,
    automaton: Automaton,
    line: &'a [u8],
}

impl<'a> Reader<'a> {
    pub fn new(table: &'a Table, line: &'a [u8]) -> Self {
        Reader { table, automaton: Automaton::new(table), line }
    }

    /// A reading of the whole line by record k. The ways at an Or are Left and
    /// then Right; at a cut they go from the longest first part downward.
    pub fn read(&self, k: usize, pick: Pick) -> Option<Value> {
        self.automaton.spells(k, self.line).then(|| self.part(k, self.line, pick))
    }

    /// A reading of a part of the line, which is in L(k).
    fn part(&self, k: usize, part: &[u8], pick: Pick) -> Value {
        match self.table.kind(k) {
            Kind::Nothing => unreachable!("Nothing has no reading"),
            Kind::Empty => Value::Void,
            Kind::Letter(_) => Value::Byte(part[0]),
            Kind::Or(r1, r2) => {
                let mut sides = Vec::new();
                if self.automaton.spells(r1, part) {
                    sides.push(true);
                }
                if self.automaton.spells(r2, part) {
                    sides.push(false);
                }
                if sides[pick(sides.len())] {
                    Value::Left(Rc::new(self.part(r1, part, pick)))
                } else {
                    Value::Right(Rc::new(self.part(r2, part, pick)))
                }
            }
            Kind::Seq(r1, r2) => {
                let rests = self.automaton.starts(r2, part);
                let cuts = self.cuts(r1, part, &rests, 0);
                let (first, second) = part.split_at(cuts[pick(cuts.len())]);
                let v1 = self.part(r1, first, pick);
                let v2 = self.part(r2, second, pick);
                Value::Seq(Rc::new(v1), Rc::new(v2))
            }
            Kind::Star(r) => {
                let rests = self.automaton.starts(k, part);
                let (mut vs, mut at) = (Vec::new(), 0);
                while at < part.len() {
                    let cuts = self.cuts(r, &part[at..], &rests[at..], 1);
                    let len = cuts[pick(cuts.len())];
                    vs.push(Rc::new(self.part(r, &part[at..at + len], pick)));
                    at += len;
                }
                Value::Stars(vs)
            }
        }
    }

    /// The lengths, from the whole part down to the least, of a first part in
    /// L(r) whose rest is readable as well.
    fn cuts(&self, r: usize, part: &[u8], rests: &[bool], least: usize) -> Vec<usize> {
        let firsts = self.automaton.ends(r, part);
        (least..=part.len()).rev().filter(|&len| firsts[len] && rests[len]).collect()
    }
}

/// The POSIX reading: Left where r1 spells the part, and the longest first
/// part whose rest is readable.
pub fn read(table: &Table, k: usize, line: &[u8]) -> Option<Value> {
    Reader::new(table, line).read(k, &mut |_| 0)
}
