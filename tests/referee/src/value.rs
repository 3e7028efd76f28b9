//! Values of the paper, the readings they are written as, and fitting.

use crate::table::{Kind, Table};
use std::rc::Rc;

#[derive(Clone, PartialEq, Eq, Debug)]
pub enum Value {
    Void,
    Byte(u8),
    Left(Rc<Value>),
    Right(Rc<Value>),
    Seq(Rc<Value>, Rc<Value>),
    Stars(Vec<Rc<Value>>),
}

impl Value {
    /// The line a value spells: the paper's flat.
    pub fn spell(&self, line: &mut Vec<u8>) {
        match self {
            Value::Void => {}
            Value::Byte(c) => line.push(*c),
            Value::Left(v) | Value::Right(v) => v.spell(line),
            Value::Seq(v1, v2) => {
                v1.spell(line);
                v2.spell(line);
            }
            Value::Stars(vs) => vs.iter().for_each(|v| v.spell(line)),
        }
    }

    pub fn line(&self) -> Vec<u8> {
        let mut line = Vec::new();
        self.spell(&mut line);
        line
    }

    /// The parts right inside a value of that kind, each with its record.
    pub fn parts(&self, kind: Kind) -> Vec<(usize, &Value)> {
        match (kind, self) {
            (Kind::Or(r1, _), Value::Left(v)) => vec![(r1, v.as_ref())],
            (Kind::Or(_, r2), Value::Right(v)) => vec![(r2, v.as_ref())],
            (Kind::Seq(r1, r2), Value::Seq(v1, v2)) => vec![(r1, v1.as_ref()), (r2, v2.as_ref())],
            (Kind::Star(r), Value::Stars(vs)) => vs.iter().map(|v| (r, v.as_ref())).collect(),
            _ => vec![],
        }
    }

    fn kind_and_argument(&self) -> (u8, u8) {
        match self {
            Value::Void => (0, 0),
            Value::Byte(c) => (1, *c),
            Value::Left(_) => (2, 0),
            Value::Right(_) => (3, 0),
            Value::Seq(..) => (4, 0),
            Value::Stars(vs) => (5, u8::try_from(vs.len()).expect("a count is at most 255")),
        }
    }

    /// Writes the reading by record k, parent first; gives the length spelled.
    fn write(&self, table: &Table, k: usize, out: &mut Vec<u8>) -> usize {
        let at = out.len();
        let (kind, argument) = self.kind_and_argument();
        out.extend([kind, argument, 0, k as u8]);
        let own = usize::from(matches!(self, Value::Byte(_)));
        let parts = self.parts(table.kind(k)).into_iter();
        let length = parts.fold(own, |sum, (r, part)| sum + part.write(table, r, out));
        out[at + 2] = (length % 256) as u8;
        length
    }

    /// The reading by record k. A length over 255 can't be written: it stands
    /// there modulo 256, and the bytes fit no record.
    pub fn reading(&self, table: &Table, k: usize) -> Vec<u8> {
        let mut out = Vec::new();
        self.write(table, k, &mut out);
        out
    }
}

/// The bytes of a reading's record: kind, argument, bytes spelled, table
/// record number.
pub const RECORD: usize = 4;

/// The value a byte sequence is a reading of, if it fits record k.
pub fn fit(table: &Table, k: usize, bytes: &[u8]) -> Option<Value> {
    let (value, _, rest) = element(table, k, bytes)?;
    rest.is_empty().then_some(value)
}

/// One element at the front: its value, the length it spells, the bytes after it.
fn element<'a>(table: &Table, k: usize, bytes: &'a [u8]) -> Option<(Value, usize, &'a [u8])> {
    let (&[kind, argument, length, number], rest) = bytes.split_first_chunk::<RECORD>()?;
    let (value, spelled, rest) = match (table.kind(k), kind, argument) {
        (Kind::Empty, 0, 0) => (Value::Void, 0, rest),
        (Kind::Letter(letter), 1, c) if letter.holds(c) => (Value::Byte(c), 1, rest),
        (Kind::Or(r1, _), 2, 0) => {
            let (v, n, rest) = element(table, r1, rest)?;
            (Value::Left(Rc::new(v)), n, rest)
        }
        (Kind::Or(_, r2), 3, 0) => {
            let (v, n, rest) = element(table, r2, rest)?;
            (Value::Right(Rc::new(v)), n, rest)
        }
        (Kind::Seq(r1, r2), 4, 0) => {
            let (v1, n1, rest) = element(table, r1, rest)?;
            let (v2, n2, rest) = element(table, r2, rest)?;
            (Value::Seq(Rc::new(v1), Rc::new(v2)), n1 + n2, rest)
        }
        (Kind::Star(r), 5, count) => {
            let (mut vs, mut total, mut rest) = (Vec::new(), 0, rest);
            for _ in 0..count {
                let (v, n, after) = element(table, r, rest)?;
                if n == 0 {
                    return None;
                }
                vs.push(Rc::new(v));
                total += n;
                rest = after;
            }
            (Value::Stars(vs), total, rest)
        }
        _ => return None,
    };
    let true_ones = usize::from(length) == spelled && usize::from(number) == k;
    true_ones.then_some((value, spelled, rest))
}
