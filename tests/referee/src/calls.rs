//! The calls as document 01 and requests 3, 5 and 6 of document 02 state them,
//! and that on alternatives, on slices.

use crate::apart;
use crate::notation;
use crate::order;
use crate::pairs::{self, Pair};
use crate::posix;
use crate::relation;
use crate::table::{check, pack, refuse, Refusal, Table};
use crate::value::{fit, Value, RECORD};
use std::cmp::Ordering;
use std::collections::HashMap;

/// Derivatives beyond this many are left to the relation alone.
pub const BUDGET: usize = 60_000;

pub fn trace_check(table: &[u8]) -> u64 {
    pack(check(table).map(|t| t.records.len() as u64))
}

/// The work area that Read asks for.
pub fn work_need(records: usize, line_len: usize) -> usize {
    records * (line_len + 1) * (line_len + 2) / 2
}

/// Lines that were read by one record of a table, and how.
struct Kept {
    table: Table,
    k: usize,
    readings: HashMap<Vec<u8>, Option<Vec<u8>>>,
}

/// Gives the POSIX reading by both roads, and keeps those by the last two
/// tables: a page is read by two.
#[derive(Default)]
pub struct Reader {
    kept: Vec<Kept>,
    pub by_derivatives: u64,
    pub by_relation_alone: u64,
}

impl Reader {
    /// The place of what is kept for the record. Of the others one is.
    fn place(&mut self, table: &Table, k: usize) -> usize {
        let found = self.kept.iter().position(|kept| kept.k == k && kept.table == *table);
        found.unwrap_or_else(|| {
            if self.kept.len() == 2 {
                self.kept.remove(0);
            }
            self.kept.push(Kept { table: table.clone(), k, readings: HashMap::new() });
            self.kept.len() - 1
        })
    }

    pub fn reading(&mut self, table: &Table, k: usize, line: &[u8]) -> Option<Vec<u8>> {
        let place = self.place(table, k);
        if let Some(reading) = self.kept[place].readings.get(line) {
            return reading.clone();
        }
        let by_relation = relation::read(table, k, line);
        match posix::read(table, k, line, BUDGET) {
            Some(by_derivatives) => {
                assert_eq!(
                    by_derivatives,
                    by_relation,
                    "the referee's two roads part: table {:02x?} start {k} line {line:02x?}",
                    table.bytes()
                );
                self.by_derivatives += 1;
            }
            None => self.by_relation_alone += 1,
        }
        let reading = by_relation.map(|v| v.reading(table, k));
        self.kept[place].readings.insert(line.to_vec(), reading.clone());
        reading
    }

    pub fn trace_read(
        &mut self,
        table: &[u8],
        start: u64,
        line: &[u8],
        work_len: usize,
        out: &mut [u8],
    ) -> u64 {
        pack(self.read(table, start, line, work_len, out))
    }

    fn read(
        &mut self,
        table: &[u8],
        start: u64,
        line: &[u8],
        work_len: usize,
        out: &mut [u8],
    ) -> Result<u64, Refusal> {
        let (table, k) = open(table, start)?;
        self.written(&table, k, line, work_len, out)
    }

    /// Refusals 7, 10, 8 and 11, or the reading, with room for so many bytes.
    pub fn admitted(
        &mut self,
        table: &Table,
        k: usize,
        line: &[u8],
        work_len: usize,
        room: usize,
    ) -> Result<Vec<u8>, Refusal> {
        if line.len() > 255 {
            return refuse(7, 0);
        }
        if work_len < work_need(table.records.len(), line.len()) {
            return refuse(10, 0);
        }
        match self.reading(table, k, line) {
            None => refuse(8, 0),
            Some(reading) if reading.len() > room => refuse(11, reading.len()),
            Some(reading) => Ok(reading),
        }
    }

    /// The same, with the reading written.
    pub fn written(
        &mut self,
        table: &Table,
        k: usize,
        line: &[u8],
        work_len: usize,
        out: &mut [u8],
    ) -> Result<u64, Refusal> {
        let reading = self.admitted(table, k, line, work_len, out.len())?;
        out[..reading.len()].copy_from_slice(&reading);
        Ok((reading.len() / RECORD) as u64)
    }
}

pub fn trace_spell(table: &[u8], start: u64, reading: &[u8], out: &mut [u8]) -> u64 {
    pack(spell(table, start, reading, out))
}

pub fn trace_compare(table: &[u8], start: u64, first: &[u8], second: &[u8]) -> u64 {
    pack(compare(table, start, first, second))
}

pub fn trace_tokens(table: &[u8], start: u64, reading: &[u8], out: &mut [u8]) -> u64 {
    pack(tokens(table, start, reading, out))
}

pub fn trace_compile(text: &[u8], out: &mut [u8]) -> u64 {
    pack(compile(text, out))
}

pub fn trace_order(tokens: &[u8], pairs: &[Pair]) -> u64 {
    pack(ordered(tokens, pairs))
}

pub fn trace_apart(table: &[u8], record: u64) -> u64 {
    pack(open(table, record).map(|(table, k)| u64::from(apart::apart(&table, k))))
}

/// Refusals 1 to 6, then 9.
pub fn open(table: &[u8], start: u64) -> Result<(Table, usize), Refusal> {
    let table = check(table)?;
    match usize::try_from(start) {
        Ok(k) if k < table.records.len() => Ok((table, k)),
        _ => refuse(9, 0),
    }
}

fn fitting(table: &Table, k: usize, reading: &[u8], which: usize) -> Result<Value, Refusal> {
    match fit(table, k, reading) {
        Some(value) => Ok(value),
        None => refuse(12, which),
    }
}

/// Writes an answer to the front of the buffer, or refuses with 11.
fn put(answer: &[u8], out: &mut [u8]) -> Result<(), Refusal> {
    match out.get_mut(..answer.len()) {
        Some(front) => {
            front.copy_from_slice(answer);
            Ok(())
        }
        None => refuse(11, answer.len()),
    }
}

fn spell(table: &[u8], start: u64, reading: &[u8], out: &mut [u8]) -> Result<u64, Refusal> {
    let (table, k) = open(table, start)?;
    let line = fitting(&table, k, reading, 0)?.line();
    put(&line, out)?;
    Ok(line.len() as u64)
}

fn compare(table: &[u8], start: u64, first: &[u8], second: &[u8]) -> Result<u64, Refusal> {
    let (table, k) = open(table, start)?;
    let value_one = fitting(&table, k, first, 0)?;
    let value_two = fitting(&table, k, second, 1)?;
    if value_one.line() != value_two.line() {
        return refuse(14, 0);
    }
    if first == second {
        return Ok(0);
    }
    match order::rank(&value_one, &value_two) {
        Ordering::Less => Ok(1),
        Ordering::Greater => Ok(2),
        Ordering::Equal => panic!("two readings of one line with the same sizes"),
    }
}

fn tokens(table: &[u8], start: u64, reading: &[u8], out: &mut [u8]) -> Result<u64, Refusal> {
    let (table, k) = open(table, start)?;
    let list = list_of(&table, k, &fitting(&table, k, reading, 0)?);
    put(&list, out)?;
    Ok(list.len() as u64 / 3)
}

/// The tokens of a reading that fits.
pub fn listed(table: &Table, k: usize, reading: &[u8]) -> Vec<u8> {
    list_of(table, k, &fit(table, k, reading).expect("a reading that fits"))
}

fn list_of(table: &Table, k: usize, value: &Value) -> Vec<u8> {
    let mut list = Vec::new();
    walk(table, k, value, &mut 0, &mut list);
    // One token for each byte at most: 3 bytes for each are always enough.
    assert!(list.len() <= 3 * value.line().len(), "the referee lists more tokens than bytes");
    list
}

/// Walks a value parent first; the offset moves on by the bytes passed. A
/// tagged part that spells no byte is left out with all that is inside it.
fn walk(table: &Table, k: usize, value: &Value, offset: &mut usize, list: &mut Vec<u8>) {
    let tag = table.tag(k);
    if tag != 0 {
        let length = value.line().len();
        if length > 0 {
            list.extend([tag, *offset as u8, length as u8]);
        }
        *offset += length;
    } else if let Value::Byte(_) = value {
        *offset += 1;
    } else {
        for (r, part) in value.parts(table.kind(k)) {
            walk(table, r, part, offset, list);
        }
    }
}

fn compile(text: &[u8], out: &mut [u8]) -> Result<u64, Refusal> {
    let Some(table) = notation::compile(text) else { return refuse(15, 0) };
    let m = table.records.len();
    if m > 255 {
        return refuse(16, 0);
    }
    put(&table.bytes(), out)?;
    Ok(m as u64)
}

fn ordered(tokens: &[u8], pairs: &[Pair]) -> Result<u64, Refusal> {
    if pairs.len() > pairs::MOST {
        return refuse(17, 0);
    }
    if !tokens.len().is_multiple_of(3) {
        return refuse(18, 0);
    }
    let found = pairs::first_to_break(tokens, pairs);
    Ok(found.unwrap_or(tokens.len() / 3) as u64)
}
