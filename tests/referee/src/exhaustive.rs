//! Small cases, all of them.

use crate::harness::{check, compare, read, spell, tokens, Harness};
use crate::unfit;
use referee::bench::{refusal, stated, T1};
use referee::calls::work_need;
use referee::random::{all_lines, all_tables, star_nest, tagged};
use referee::rivals::rivals;
use referee::table::{Letter, Table};
use referee::value::RECORD;

/// Cases A to J, the edges, Other, empty tagged parts, texts, pairs of names, pages
/// and alternatives, against stated answers.
pub fn bench(h: &mut Harness) {
    for case in stated() {
        h.from(format!("case {}", case.name));
        let out_len = if case.request.width() == 0 { 0 } else { case.written.len() + 9 };
        h.put_stated(case.request.clone(), out_len, case.number, &case.written);
        if out_len > 0 {
            h.put_stated(case.request, case.written.len(), case.number, &case.written);
        }
    }
}

/// Check on all tables of up to 3 records with small fields, and on every
/// length.
pub fn fields(h: &mut Harness) {
    h.from("all small fields");
    let mut records = Vec::new();
    for kind in 0..=7 {
        for a in 0..=3 {
            for b in 0..=3 {
                records.push([kind, a, b, 0]);
            }
        }
    }
    let mut table = Vec::new();
    for one in &records {
        table.clear();
        table.extend(one);
        h.put(check(&table), 0);
        for two in &records {
            table.truncate(4);
            table.extend(two);
            h.put(check(&table), 0);
            if one[0] == 7 || two[0] == 7 {
                continue;
            }
            for three in &records {
                table.truncate(8);
                table.extend(three);
                h.put(check(&table), 0);
            }
        }
    }
    h.from("all lengths of a table");
    for len in 0..=1030 {
        let table: Vec<u8> = (0..len).map(|i| u8::from(i % 4 == 0)).collect();
        h.put(check(&table), 0);
    }
    h.from("every byte as kind, a or b");
    for field in 0..3 {
        for byte in 0..=255 {
            for kind in 0..=7 {
                let mut table = [1, 0, 0, 0, 1, 0, 0, 0, kind, 0, 1, 0];
                table[8 + field] = byte;
                h.put(check(&table), 0);
            }
        }
    }
}

/// All tables of up to so many records over two letters, all start numbers,
/// all lines of up to 4 bytes, all rivals.
pub fn tables(h: &mut Harness, records: usize) {
    let lines = all_lines(4);
    for m in 1..=records {
        all_tables(m, &mut |table| {
            h.from("all small tables");
            for start in 0..m {
                for line in &lines {
                    all_rivals(h, table, start, line);
                }
            }
            let bytes = table.bytes();
            h.put(check(&bytes), 0);
            let need = work_need(m, 0);
            h.put(read(&bytes, m as u64, b"", need), 8);
            h.put(spell(&bytes, m as u64, &[0, 0, 0, 0]), 8);
        });
    }
}

/// One line by one start record: Read, the ranking of all rivals, Spell and
/// Tokens of each.
fn all_rivals(h: &mut Harness, table: &Table, k: usize, line: &[u8]) {
    let (bytes, start) = (table.bytes(), k as u64);
    let need = work_need(table.records.len(), line.len());
    let all: Vec<Vec<u8>> = rivals(table, k, line).iter().map(|v| v.reading(table, k)).collect();
    h.put_stated(read(&bytes, start, line, need - 1), 128, refusal(10), &[]);
    let Some(best) = h.reader.reading(table, k, line) else {
        assert!(all.is_empty(), "the referee misses a reading");
        h.put_stated(read(&bytes, start, line, need), 4, refusal(8), &[]);
        return;
    };
    assert!(all.contains(&best), "the referee's reading is no rival");
    // The buffer at every length: 11 below the need, the reading from there.
    for out_len in 0..best.len() {
        let number = refusal(11) + best.len() as u64;
        h.put_stated(read(&bytes, start, line, need), out_len, number, &[]);
    }
    for out_len in [best.len(), best.len() + 3] {
        let count = (best.len() / RECORD) as u64;
        h.put_stated(read(&bytes, start, line, need), out_len, count, &best);
    }
    // The ranking, both ways round.
    for rival in &all {
        let (ahead, behind) = if *rival == best { (0, 0) } else { (1, 2) };
        h.put_stated(compare(&bytes, start, &best, rival), 0, ahead, &[]);
        h.put_stated(compare(&bytes, start, rival, &best), 0, behind, &[]);
    }
    for pair in all.windows(2) {
        h.put(compare(&bytes, start, &pair[0], &pair[1]), 0);
        h.put(compare(&bytes, start, &pair[1], &pair[0]), 0);
    }
    for rival in &all {
        let n = line.len();
        h.put_stated(spell(&bytes, start, rival), n, n as u64, line);
        if n > 0 {
            h.put_stated(spell(&bytes, start, rival), n - 1, refusal(11) + n as u64, &[]);
        }
    }
    // The tags on every choice of records.
    if k + 1 == table.records.len() && line.len() < 4 {
        for mask in 0..1 << (k + 1) {
            let bytes = tagged(table, mask).bytes();
            h.put(tokens(&bytes, start, &best), 24);
            h.put(tokens(&bytes, start, &best), 3 * line.len());
            h.put(tokens(&bytes, start, all.last().expect("a rival")), 3);
        }
    }
}

/// Wrong lengths and record numbers in the readings of lines of up to 3 bytes by
/// all tables of up to so many records, and every other byte in those of tables
/// of up to 3.
pub fn wrong_bytes(h: &mut Harness, records: usize) {
    let lines = all_lines(3);
    for m in 1..=records {
        all_tables(m, &mut |table| {
            h.from("all readings of small tables, damaged");
            for line in &lines {
                for value in rivals(table, m - 1, line) {
                    unfit::each_record(h, table, m - 1, &value);
                    if m < 4 {
                        unfit::each_byte(h, table, m - 1, &value);
                        unfit::torn(h, table, m - 1, &value);
                    }
                }
            }
        });
    }
}

/// Lines of every length up to 260, by a Star over a Range and over an Other,
/// and of some lengths by T1.
pub fn lengths(h: &mut Harness) {
    for n in 0..=260 {
        h.from(format!("a line of {n}"));
        let need = work_need(2, n);
        let line = vec![0x61; n];
        for letter in [Letter::range(0x61, 0x61), Letter::other(0x62, 0x62)] {
            let many = star_nest(letter, 2, 0).bytes();
            for out_len in [4 * n + 4, 4 * n + 3] {
                h.put(read(&many, 1, &line, need), out_len);
            }
            h.put(read(&many, 1, &line, need - 1), 4 * n + 4);
        }
        if n % 17 == 0 {
            let line = b"abcab".repeat(n / 5);
            h.put(read(T1, 9, &line, work_need(10, line.len())), 4000);
        }
    }
}

/// All byte sequences of up to 2 records, as readings of all tables of up to
/// so many records.
pub fn readings(h: &mut Harness, records: usize) {
    let mut words = Vec::new();
    for kind in 0..=6 {
        for argument in [0, 1, 0x61, 0x62] {
            for length in 0..=2 {
                words.extend((0..=2).map(|number| [kind, argument, length, number]));
            }
        }
    }
    for m in 1..=records {
        all_tables(m, &mut |table| {
            h.from("all short readings");
            let (bytes, start) = (table.bytes(), m as u64 - 1);
            h.put(spell(&bytes, start, &[]), 2);
            for one in &words {
                h.put(spell(&bytes, start, one), 2);
                for cut in 1..RECORD {
                    h.put(tokens(&bytes, start, &one[..cut]), 2);
                }
                // With another number, or kind, the first record alone is enough.
                if u64::from(one[3]) != start || !(2..=5).contains(&one[0]) {
                    continue;
                }
                for two in &words {
                    let reading = [&one[..], &two[..]].concat();
                    h.put(spell(&bytes, start, &reading), 2);
                    h.put(compare(&bytes, start, &reading, one), 0);
                }
            }
        });
    }
}
