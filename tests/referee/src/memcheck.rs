//! A few hundred random inputs in exactly sized heap allocations, to be run
//! under a memory checker.

use crate::alternatives;
use crate::exhaustive;
use crate::ffi::Lending;
use crate::harness::Harness;
use crate::lists;
use crate::pages;
use crate::sampled::{round, Size};
use crate::texts;
use crate::typing;
use crate::unfit;
use referee::bench::{T1, T2};
use referee::random::{star_nest, Rng};
use referee::relation;
use referee::table::{check, Letter};

/// The readings C and F, and one of 255 bytes, with wrong lengths and record
/// numbers; the short ones cut at each byte too.
fn damages(h: &mut Harness) {
    let many = star_nest(Letter::range(0x61, 0x61), 3, 0);
    for (bytes, line) in [(T1, &b"abc"[..]), (T2, b"ab"), (&many.bytes(), &[0x61; 255])] {
        h.from(format!("memory, damages of a line of {}", line.len()));
        let table = check(bytes).expect("a table that passes");
        let k = table.records.len() - 1;
        let value = relation::read(&table, k, line).expect("a line that is read");
        if line.len() < 4 {
            unfit::each_record(h, &table, k, &value);
            unfit::torn(h, &table, k, &value);
        } else {
            unfit::some_records(h, &mut Rng::new(9), &table, k, &value, 12);
        }
    }
}

pub fn run() {
    let mut h = Harness::new(Lending::Exact);
    exhaustive::bench(&mut h);
    h.done("memory, the bench");
    damages(&mut h);
    h.done("memory, wrong lengths and record numbers");
    let mut rng = Rng::new(7);
    for i in 0..24 {
        h.from(format!("memory, round {i}"));
        round(&mut h, &mut rng, if i % 8 == 7 { Size::Medium } else { Size::Small });
    }
    h.done("memory, random tables");
    texts::torn(&mut h);
    h.done("memory, torn texts");
    for i in 0..24 {
        h.from(format!("memory, text round {i}"));
        let size = [Size::Small, Size::Small, Size::Small, Size::Medium][i % 4];
        texts::round(&mut h, &mut rng, if i == 23 { Size::Long } else { size });
    }
    h.done("memory, random texts");
    lists::torn(&mut h);
    h.done("memory, torn lists");
    for i in 0..24 {
        h.from(format!("memory, list round {i}"));
        lists::round(&mut h, &mut rng, if i % 8 == 7 { Size::Medium } else { Size::Small });
    }
    h.done("memory, random lists");
    typing::made(&mut h, &[0, 255]);
    typing::each_field(&mut h);
    for i in 0..24 {
        h.from(format!("memory, live line round {i}"));
        typing::round(&mut h, &mut rng, if i % 8 == 7 { Size::Medium } else { Size::Small });
    }
    h.done("memory, live lines");
    pages::torn(&mut h);
    for i in 0..24 {
        h.from(format!("memory, page round {i}"));
        pages::round(&mut h, &mut rng, if i % 8 == 7 { Size::Medium } else { Size::Small });
    }
    h.done("memory, pages");
    alternatives::torn(&mut h);
    for i in 0..16 {
        h.from(format!("memory, alternatives round {i}"));
        alternatives::round(&mut h, &mut rng, if i % 8 == 7 { Size::Medium } else { Size::Small });
    }
    h.done("memory, alternatives");
}
