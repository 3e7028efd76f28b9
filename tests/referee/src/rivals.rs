//! All rivals: every reading that fits a record and spells a line. Written
//! from the rules of fitting alone; only for short lines.

use crate::table::{Kind, Table};
use crate::value::Value;
use std::rc::Rc;

pub fn rivals(table: &Table, k: usize, line: &[u8]) -> Vec<Value> {
    match table.kind(k) {
        Kind::Nothing => vec![],
        Kind::Empty if line.is_empty() => vec![Value::Void],
        Kind::Empty => vec![],
        Kind::Letter(letter) => match line {
            &[c] if letter.holds(c) => vec![Value::Byte(c)],
            _ => vec![],
        },
        Kind::Or(r1, r2) => {
            let left = rivals(table, r1, line).into_iter().map(|v| Value::Left(Rc::new(v)));
            let right = rivals(table, r2, line).into_iter().map(|v| Value::Right(Rc::new(v)));
            left.chain(right).collect()
        }
        Kind::Seq(r1, r2) => {
            let mut all = Vec::new();
            for cut in 0..=line.len() {
                let seconds = rivals(table, r2, &line[cut..]);
                for v1 in rivals(table, r1, &line[..cut]) {
                    for v2 in &seconds {
                        all.push(Value::Seq(Rc::new(v1.clone()), Rc::new(v2.clone())));
                    }
                }
            }
            all
        }
        Kind::Star(r) => {
            if line.is_empty() {
                return vec![Value::Stars(vec![])];
            }
            let mut all = Vec::new();
            for cut in 1..=line.len() {
                let rests = rivals(table, k, &line[cut..]);
                for v in rivals(table, r, &line[..cut]) {
                    let v = Rc::new(v);
                    for rest in &rests {
                        if let Value::Stars(vs) = rest {
                            let mut one = vec![v.clone()];
                            one.extend(vs.iter().cloned());
                            all.push(Value::Stars(one));
                        }
                    }
                }
            }
            all
        }
    }
}
