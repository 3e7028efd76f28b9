//! Alternatives that are seen to share no line, beyond request 9 of document 02:
//! the bytes that start and end the lines of a record, as sets, by recursion over
//! the table.

use crate::table::{Kind, Table};

type Bytes = [bool; 256];

/// What is seen of a record: the bytes that start its lines, those that end them,
/// and whether it spells the empty line. Where a part of a Seq spells no line, the
/// bytes of the other still count.
#[derive(Clone, Copy)]
pub struct Seen {
    pub starts: Bytes,
    pub ends: Bytes,
    pub empty: bool,
}

fn either(one: &Bytes, two: &Bytes) -> Bytes {
    std::array::from_fn(|c| one[c] || two[c])
}

fn none_in_both(one: &Bytes, two: &Bytes) -> bool {
    !(0..256).any(|c| one[c] && two[c])
}

/// The bytes of the near part of a Seq, and of the far one where the near one may
/// be empty.
fn across(near: &Bytes, empty: bool, far: &Bytes) -> Bytes {
    if empty {
        either(near, far)
    } else {
        *near
    }
}

pub fn seen(table: &Table, k: usize) -> Seen {
    let none = [false; 256];
    match table.kind(k) {
        Kind::Nothing => Seen { starts: none, ends: none, empty: false },
        Kind::Empty => Seen { starts: none, ends: none, empty: true },
        Kind::Letter(letter) => {
            let held = std::array::from_fn(|c| letter.holds(c as u8));
            Seen { starts: held, ends: held, empty: false }
        }
        Kind::Or(a, b) => {
            let (one, two) = (seen(table, a), seen(table, b));
            Seen {
                starts: either(&one.starts, &two.starts),
                ends: either(&one.ends, &two.ends),
                empty: one.empty || two.empty,
            }
        }
        Kind::Seq(a, b) => {
            let (one, two) = (seen(table, a), seen(table, b));
            Seen {
                starts: across(&one.starts, one.empty, &two.starts),
                ends: across(&two.ends, two.empty, &one.ends),
                empty: one.empty && two.empty,
            }
        }
        Kind::Star(a) => Seen { empty: true, ..seen(table, a) },
    }
}

/// The alternatives of an Or record are seen to share no line; of a record of
/// another kind nothing is seen.
pub fn apart(table: &Table, k: usize) -> bool {
    let Kind::Or(a, b) = table.kind(k) else { return false };
    let (one, two) = (seen(table, a), seen(table, b));
    let starts_apart = none_in_both(&one.starts, &two.starts);
    let ends_apart = none_in_both(&one.ends, &two.ends);
    !(one.empty && two.empty) && (starts_apart || ends_apart)
}

/// The table with the alternatives of an Or record exchanged.
pub fn exchanged(table: &Table, k: usize) -> Table {
    let mut other = table.clone();
    if let Kind::Or(a, b) = table.kind(k) {
        other.records[k].kind = Kind::Or(b, a);
    }
    other
}

#[cfg(test)]
mod tests {
    use super::*;
    use crate::calls::{listed, trace_apart, Reader};
    use crate::live::Typist;
    use crate::random::{all_lines, all_tables, table, tagged, Grower, Rng};
    use crate::relation::Spelling;

    /// The table that spells each line from its end.
    fn turned(t: &Table) -> Table {
        let mut other = t.clone();
        for record in &mut other.records {
            if let Kind::Seq(a, b) = record.kind {
                record.kind = Kind::Seq(b, a);
            }
        }
        other
    }

    /// Where every record spells some line, a byte starts lines of a record if a
    /// line of that byte can be extended, which is found by derivatives. The
    /// ends are the starts of the table that spells each line from its end.
    #[test]
    fn by_both_roads() {
        let mut rng = Rng::new(11);
        let (mut typist, mut started) = (Typist::default(), 0);
        for _ in 0..300 {
            let records = 1 + rng.below(9);
            let t = table(&mut rng, records);
            if !(0..records).all(|k| Grower::new(&t).spells_some(k)) {
                continue;
            }
            for k in 0..records {
                let (ahead, back) = (seen(&t, k), seen(&turned(&t), k));
                assert_eq!((ahead.starts, ahead.ends), (back.ends, back.starts));
                assert_eq!(ahead.empty, typist.facts(&t, k, &[]).0);
                for c in 0..=255 {
                    let can = typist.facts(&t, k, &[c]).1;
                    assert_eq!(ahead.starts[usize::from(c)], can, "{t:?} {k} {c}");
                    started += u32::from(can);
                }
            }
        }
        assert!(started > 1000, "{started} bytes start lines");
    }

    /// A yes means that no line is spelled by both, and that each line has the
    /// same tokens by the exchanged table; enough are met, and of those that are
    /// not seen enough share a line and enough share none of the short ones.
    #[test]
    fn what_yes_means() {
        let (lines, mut reader) = (all_lines(3), Reader::default());
        let (mut yes, mut shared, mut unseen) = (0, 0, 0);
        let mut each = |t: &Table, k: usize| {
            let Kind::Or(a, b) = t.kind(k) else {
                return assert!(!apart(t, k));
            };
            let spelling = Spelling::new(t);
            let both = |line: &Vec<u8>| spelling.spells(a, line) && spelling.spells(b, line);
            let shares = lines.iter().any(both);
            match (apart(t, k), shares) {
                (true, false) => yes += 1,
                (true, true) => panic!("a yes of alternatives that share a line: {t:?} {k}"),
                (false, true) => shared += 1,
                (false, false) => unseen += 1,
            }
            if !apart(t, k) {
                return;
            }
            let (t, start) = (tagged(t, 1 << a | 1 << b), t.records.len() - 1);
            let other = exchanged(&t, k);
            assert!(apart(&other, k));
            for line in &lines {
                let tokens = |reader: &mut Reader, t: &Table| {
                    let reading = reader.reading(t, start, line);
                    reading.map(|reading| (reading.len(), listed(t, start, &reading)))
                };
                assert_eq!(tokens(&mut reader, &t), tokens(&mut reader, &other));
            }
        };
        for records in 1..=3 {
            all_tables(records, &mut |t| (0..records).for_each(|k| each(t, k)));
        }
        let mut rng = Rng::new(12);
        for _ in 0..400 {
            let records = 3 + rng.below(8);
            let t = table(&mut rng, records);
            (0..records).for_each(|k| each(&t, k));
        }
        assert!(yes > 100 && shared > 100 && unseen > 20, "{yes} {shared} {unseen}");
    }

    #[test]
    fn nine_behind_the_table() {
        let or = [2, 0x61, 0x61, 0, 1, 0, 0, 0, 3, 0, 1, 0];
        assert_eq!(trace_apart(&or, 2), 1);
        assert_eq!(trace_apart(&or, 1), 0);
        assert_eq!(trace_apart(&or, 3), 9 << 32);
        assert_eq!(trace_apart(&or, u64::MAX), 9 << 32);
        assert_eq!(trace_apart(&or[..11], 3), 1 << 32);
        assert_eq!(trace_apart(&[7, 0, 0, 0], 1), 2 << 32);
    }
}
