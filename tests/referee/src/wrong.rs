//! Readings with lengths or record numbers that aren't the true ones. None of
//! them fits.

use crate::table::Table;
use crate::value::{fit, Value, RECORD};

/// Another byte at one place of a reading.
#[derive(Clone, Copy, PartialEq, Eq, PartialOrd, Ord, Debug)]
pub struct Change {
    pub at: usize,
    pub byte: u8,
}

impl Change {
    pub fn made(self, reading: &[u8]) -> Vec<u8> {
        let mut bytes = reading.to_vec();
        bytes[self.at] = self.byte;
        bytes
    }
}

/// Every other byte at every place but the argument of a Byte.
pub fn every(reading: &[u8]) -> Vec<Change> {
    let is_letter = |at: usize| at % RECORD == 1 && reading[at - 1] == 1;
    let places = (0..reading.len()).filter(|&at| !is_letter(at));
    let others =
        |at: usize| (1..=255).map(move |more| Change { at, byte: reading[at].wrapping_add(more) });
    places.flat_map(others).collect()
}

/// One record of a reading: its part, the table record that reads it, which
/// record is above it, the length, and the record behind the part.
struct Place<'a> {
    value: &'a Value,
    number: usize,
    above: Option<usize>,
    length: usize,
    end: usize,
}

/// A reading, record by record.
pub struct Places<'a> {
    table: &'a Table,
    pub reading: Vec<u8>,
    list: Vec<Place<'a>>,
}

impl<'a> Places<'a> {
    pub fn new(table: &'a Table, k: usize, value: &'a Value) -> Self {
        let mut places = Places { table, reading: value.reading(table, k), list: vec![] };
        places.enter(k, value, None);
        places
    }

    fn enter(&mut self, number: usize, value: &'a Value, above: Option<usize>) -> usize {
        let i = self.list.len();
        let length = usize::from(matches!(value, Value::Byte(_)));
        self.list.push(Place { value, number, above, length, end: i });
        for (r, part) in value.parts(self.table.kind(number)) {
            self.list[i].length += self.enter(r, part, Some(i));
        }
        self.list[i].end = self.list.len();
        self.list[i].length
    }

    pub fn records(&self) -> usize {
        self.list.len()
    }

    /// Lengths and numbers that could be mistaken for those of record i: one
    /// more and one less, those of parts around, beside and inside, the count
    /// or the byte for the length, and the ends of a byte.
    pub fn bytes(&self, i: usize) -> Vec<Change> {
        let Place { value, number, length, end, .. } = self.list[i];
        let root = &self.list[0];
        let mut lengths = vec![length + 1, length + 255, 0, 255, length ^ 128, root.length];
        let mut numbers = vec![number + 1, number + 255, 0, 255, number ^ 128, root.number];
        numbers.push(self.table.records.len());
        numbers.extend(self.table.kind(number).children());
        if let Some(above) = self.list[i].above.map(|above| &self.list[above]) {
            lengths.push(above.length);
            numbers.push(above.number);
            numbers.extend(self.table.kind(above.number).children());
        }
        match value {
            Value::Stars(vs) => lengths.push(vs.len()),
            Value::Byte(c) => lengths.push(usize::from(*c)),
            _ => {}
        }
        if i + 1 < end {
            lengths.push(self.list[i + 1].length);
        }
        let mut changes = Vec::new();
        for (at, bytes) in [(RECORD * i + 2, lengths), (RECORD * i + 3, numbers)] {
            let bytes = bytes.into_iter().map(|byte| (byte % 256) as u8);
            let others = bytes.filter(|&byte| byte != self.reading[at]);
            changes.extend(others.map(|byte| Change { at, byte }));
        }
        changes.sort();
        changes.dedup();
        changes
    }

    /// Readings with more than one wrong byte at record i: its length one off,
    /// with those of all parts around it; in a Seq one length more and the
    /// other one less; and the part as another record would read it.
    pub fn together(&self, i: usize) -> Vec<Vec<u8>> {
        let mut all = Vec::new();
        for more in [1, 255] {
            let mut bytes = self.reading.clone();
            let mut place = Some(i);
            while let Some(j) = place {
                bytes[RECORD * j + 2] = bytes[RECORD * j + 2].wrapping_add(more);
                place = self.list[j].above;
            }
            all.push(bytes);
        }
        let Place { value, number, end, .. } = self.list[i];
        if let Value::Seq(..) = value {
            let (first, second) = (i + 1, self.list[i + 1].end);
            let mut bytes = self.reading.clone();
            bytes[RECORD * first + 2] = bytes[RECORD * first + 2].wrapping_add(1);
            bytes[RECORD * second + 2] = bytes[RECORD * second + 2].wrapping_sub(1);
            all.push(bytes);
        }
        for other in (0..self.table.records.len()).filter(|&other| other != number) {
            let part = value.reading(self.table, other);
            if fit(self.table, other, &part).is_some() {
                let mut bytes = self.reading.clone();
                bytes[RECORD * i..RECORD * end].copy_from_slice(&part);
                all.push(bytes);
            }
        }
        all
    }
}

#[cfg(test)]
mod tests {
    use super::*;
    use crate::random::{table, Grower, Rng, Room};

    #[test]
    fn none_fits() {
        let mut rng = Rng::new(6);
        let (mut changed, mut as_another, mut over) = (0, 0, 0);
        for round in 0..1500 {
            let records = 1 + rng.below(if round % 10 == 0 { 40 } else { 8 });
            let (t, k) = (table(&mut rng, records), records - 1);
            let eager = round % 50 == 0;
            let mut room = Room { bytes: if eager { 300 } else { 8 }, eager };
            let Some(v) = Grower::new(&t).value(&mut rng, k, &mut room) else { continue };
            let places = Places::new(&t, k, &v);
            let fits = v.line().len() < 256;
            over += u32::from(!fits);
            assert_eq!(fit(&t, k, &places.reading).is_some(), fits);
            for i in 0..places.records().min(40) {
                for change in places.bytes(i) {
                    assert_eq!(fit(&t, k, &change.made(&places.reading)), None);
                    changed += 1;
                }
                for bytes in places.together(i) {
                    assert_eq!(fit(&t, k, &bytes), None);
                    as_another +=
                        u32::from(bytes[RECORD * i + 2] == places.reading[RECORD * i + 2]);
                }
            }
            if places.records() < 6 {
                let every = every(&places.reading).into_iter();
                every.for_each(|c| assert_eq!(fit(&t, k, &c.made(&places.reading)), None));
            }
        }
        assert!(changed > 10_000 && as_another > 500 && over > 3);
    }
}
