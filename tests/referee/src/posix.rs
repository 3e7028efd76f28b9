//! The paper's road: derivatives forward, then mkeps and injection backward.
//!
//! Expressions are kept once each (equal expressions share a name) and parts
//! that spell nothing are dropped: 0 + r and r + 0 are r, 0 · r and r · 0 are
//! 0. Injection looks at the two sides again to know which one was dropped.
//! Apart from that the equations are the paper's.

use crate::table::{Kind, Letter, Table};
use crate::value::Value;
use std::collections::HashMap;
use std::rc::Rc;

type Name = usize;

#[derive(Clone, Copy, PartialEq, Eq, Hash)]
enum Expr {
    Zero,
    One,
    Letter(Letter),
    Or(Name, Name),
    Seq(Name, Name),
    Star(Name),
}

/// The road got too long: more expressions than the budget.
struct TooLong;

struct Lexer {
    exprs: Vec<Expr>,
    nullable: Vec<bool>,
    names: HashMap<Expr, Name>,
    derived: HashMap<(Name, u8), Name>,
    budget: usize,
}

impl Lexer {
    fn new(budget: usize) -> Self {
        Lexer {
            exprs: Vec::new(),
            nullable: Vec::new(),
            names: HashMap::new(),
            derived: HashMap::new(),
            budget,
        }
    }

    fn name(&mut self, expr: Expr) -> Name {
        if let Some(&name) = self.names.get(&expr) {
            return name;
        }
        let nullable = match expr {
            Expr::Zero | Expr::Letter(_) => false,
            Expr::One | Expr::Star(_) => true,
            Expr::Or(a, b) => self.nullable[a] || self.nullable[b],
            Expr::Seq(a, b) => self.nullable[a] && self.nullable[b],
        };
        let name = self.exprs.len();
        self.exprs.push(expr);
        self.nullable.push(nullable);
        self.names.insert(expr, name);
        name
    }

    /// The expression of record k as it stands, nothing dropped.
    fn record(&mut self, table: &Table, k: usize) -> Name {
        let expr = match table.kind(k) {
            Kind::Nothing => Expr::Zero,
            Kind::Empty => Expr::One,
            Kind::Letter(letter) => Expr::Letter(letter),
            Kind::Or(a, b) => Expr::Or(self.record(table, a), self.record(table, b)),
            Kind::Seq(a, b) => Expr::Seq(self.record(table, a), self.record(table, b)),
            Kind::Star(a) => Expr::Star(self.record(table, a)),
        };
        self.name(expr)
    }

    fn is_zero(&self, r: Name) -> bool {
        self.exprs[r] == Expr::Zero
    }

    fn or(&mut self, a: Name, b: Name) -> Name {
        if self.is_zero(a) {
            b
        } else if self.is_zero(b) {
            a
        } else {
            self.name(Expr::Or(a, b))
        }
    }

    fn seq(&mut self, a: Name, b: Name) -> Name {
        if self.is_zero(a) || self.is_zero(b) {
            self.name(Expr::Zero)
        } else {
            self.name(Expr::Seq(a, b))
        }
    }

    /// r \ c
    fn derive(&mut self, r: Name, c: u8) -> Result<Name, TooLong> {
        if let Some(&d) = self.derived.get(&(r, c)) {
            return Ok(d);
        }
        if self.exprs.len() > self.budget || self.derived.len() > self.budget {
            return Err(TooLong);
        }
        let d = match self.exprs[r] {
            Expr::Zero | Expr::One => self.name(Expr::Zero),
            Expr::Letter(letter) if letter.holds(c) => self.name(Expr::One),
            Expr::Letter(_) => self.name(Expr::Zero),
            Expr::Or(a, b) => {
                let (da, db) = (self.derive(a, c)?, self.derive(b, c)?);
                self.or(da, db)
            }
            Expr::Seq(a, b) => {
                let da = self.derive(a, c)?;
                let inside = self.seq(da, b);
                if self.nullable[a] {
                    let db = self.derive(b, c)?;
                    self.or(inside, db)
                } else {
                    inside
                }
            }
            Expr::Star(a) => {
                let da = self.derive(a, c)?;
                self.seq(da, r)
            }
        };
        self.derived.insert((r, c), d);
        Ok(d)
    }

    /// mkeps: how a nullable expression reads the empty line.
    fn mkeps(&self, r: Name) -> Rc<Value> {
        Rc::new(match self.exprs[r] {
            Expr::One => Value::Void,
            Expr::Or(a, _) if self.nullable[a] => Value::Left(self.mkeps(a)),
            Expr::Or(_, b) => Value::Right(self.mkeps(b)),
            Expr::Seq(a, b) => Value::Seq(self.mkeps(a), self.mkeps(b)),
            Expr::Star(_) => Value::Stars(vec![]),
            Expr::Zero | Expr::Letter(_) => unreachable!("not nullable"),
        })
    }

    /// The sides of an Or of a and b: which side a value of `or(a, b)` is of.
    fn side(&self, a: Name, b: Name, v: &Rc<Value>) -> (bool, Rc<Value>) {
        if self.is_zero(a) {
            return (false, v.clone());
        }
        if self.is_zero(b) {
            return (true, v.clone());
        }
        match &**v {
            Value::Left(v) => (true, v.clone()),
            Value::Right(v) => (false, v.clone()),
            _ => unreachable!("a value of an Or"),
        }
    }

    /// inj r c v: from a value of r \ c to a value of r.
    fn inject(&mut self, r: Name, c: u8, v: &Rc<Value>) -> Rc<Value> {
        Rc::new(match self.exprs[r] {
            Expr::Letter(_) => Value::Byte(c),
            Expr::Or(a, b) => {
                let (da, db) = (self.derivative(a, c), self.derivative(b, c));
                let (left, v) = self.side(da, db, v);
                if left {
                    Value::Left(self.inject(a, c, &v))
                } else {
                    Value::Right(self.inject(b, c, &v))
                }
            }
            Expr::Seq(a, b) => {
                let da = self.derivative(a, c);
                let inside = self.seq(da, b);
                let (first, v) = if self.nullable[a] {
                    let db = self.derivative(b, c);
                    self.side(inside, db, v)
                } else {
                    (true, v.clone())
                };
                match &*v {
                    Value::Seq(v1, v2) if first => Value::Seq(self.inject(a, c, v1), v2.clone()),
                    _ => {
                        assert!(!first, "a value of a Seq");
                        Value::Seq(self.mkeps(a), self.inject(b, c, &v))
                    }
                }
            }
            Expr::Star(a) => match &*v.clone() {
                Value::Seq(v1, rest) => match &**rest {
                    Value::Stars(vs) => {
                        let mut all = vec![self.inject(a, c, v1)];
                        all.extend(vs.iter().cloned());
                        Value::Stars(all)
                    }
                    _ => unreachable!("a value of a Star"),
                },
                _ => unreachable!("a value of a Seq"),
            },
            Expr::Zero | Expr::One => unreachable!("no derivative to inject into"),
        })
    }

    /// A derivative that was already taken on the way forward.
    fn derivative(&self, r: Name, c: u8) -> Name {
        self.derived[&(r, c)]
    }
}

/// The POSIX reading of the line by record k. The outer None says that the
/// derivatives passed the budget, the inner one that no reading exists.
pub fn read(table: &Table, k: usize, line: &[u8], budget: usize) -> Option<Option<Value>> {
    let mut lexer = Lexer::new(budget);
    let mut r = lexer.record(table, k);
    let mut passed = Vec::new();
    for &c in line {
        passed.push((r, c));
        r = lexer.derive(r, c).ok()?;
    }
    if !lexer.nullable[r] {
        return Some(None);
    }
    let mut v = lexer.mkeps(r);
    for &(r, c) in passed.iter().rev() {
        v = lexer.inject(r, c, &v);
    }
    Some(Some(Rc::unwrap_or_clone(v)))
}
