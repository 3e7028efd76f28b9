//! The rule table: records, Check, and the refusals.

/// A refusal: its number and its detail.
#[derive(Clone, Copy, PartialEq, Eq, Debug)]
pub struct Refusal {
    pub number: u32,
    pub detail: u32,
}

pub fn refuse<T>(number: u32, detail: usize) -> Result<T, Refusal> {
    let detail = u32::try_from(detail).expect("a detail fits 32 bits");
    Err(Refusal { number, detail })
}

/// The one 64-bit number a caller gets.
pub fn pack(answer: Result<u64, Refusal>) -> u64 {
    match answer {
        Ok(result) => result,
        Err(r) => (u64::from(r.number) << 32) + u64::from(r.detail),
    }
}

/// What spells one byte: a Range, within its bounds, or an Other, outside them.
#[derive(Clone, Copy, PartialEq, Eq, Hash, Debug)]
pub struct Letter {
    pub a: u8,
    pub b: u8,
    pub outside: bool,
}

impl Letter {
    pub const fn range(a: u8, b: u8) -> Self {
        Letter { a, b, outside: false }
    }

    pub const fn other(a: u8, b: u8) -> Self {
        Letter { a, b, outside: true }
    }

    pub fn holds(self, c: u8) -> bool {
        if self.outside {
            c < self.a || c > self.b
        } else {
            self.a <= c && c <= self.b
        }
    }
}

#[derive(Clone, Copy, PartialEq, Eq, Debug)]
pub enum Kind {
    Nothing,
    Empty,
    Letter(Letter),
    Or(usize, usize),
    Seq(usize, usize),
    Star(usize),
}

impl Kind {
    pub fn children(self) -> Vec<usize> {
        match self {
            Kind::Or(a, b) | Kind::Seq(a, b) => vec![a, b],
            Kind::Star(a) => vec![a],
            _ => vec![],
        }
    }
}

#[derive(Clone, Copy, PartialEq, Eq, Debug)]
pub struct Record {
    pub kind: Kind,
    pub tag: u8,
}

/// A table that passed Check.
#[derive(Clone, PartialEq, Eq, Debug)]
pub struct Table {
    pub records: Vec<Record>,
}

impl Table {
    pub fn kind(&self, k: usize) -> Kind {
        self.records[k].kind
    }

    pub fn tag(&self, k: usize) -> u8 {
        self.records[k].tag
    }

    pub fn bytes(&self) -> Vec<u8> {
        self.records.iter().flat_map(|r| record_bytes(*r)).collect()
    }
}

pub fn record_bytes(record: Record) -> [u8; 4] {
    let tag = record.tag;
    match record.kind {
        Kind::Nothing => [0, 0, 0, tag],
        Kind::Empty => [1, 0, 0, tag],
        Kind::Letter(Letter { a, b, outside }) => [if outside { 6 } else { 2 }, a, b, tag],
        Kind::Or(a, b) => [3, a as u8, b as u8, tag],
        Kind::Seq(a, b) => [4, a as u8, b as u8, tag],
        Kind::Star(a) => [5, a as u8, 0, tag],
    }
}

/// Check: records upward, refusals 2 to 6 in order at each.
pub fn check(bytes: &[u8]) -> Result<Table, Refusal> {
    if bytes.is_empty() || bytes.len() > 1020 || !bytes.len().is_multiple_of(4) {
        return refuse(1, 0);
    }
    let mut records: Vec<Record> = Vec::new();
    for (k, field) in bytes.chunks(4).enumerate() {
        let (kind, a, b, tag) = (field[0], field[1], field[2], field[3]);
        if kind > 6 {
            return refuse(2, k);
        }
        let a_is_zero = kind == 0 || kind == 1;
        let b_is_zero = a_is_zero || kind == 5;
        if (a_is_zero && a != 0) || (b_is_zero && b != 0) {
            return refuse(3, k);
        }
        if (kind == 2 || kind == 6) && a > b {
            return refuse(4, k);
        }
        let (r1, r2) = (usize::from(a), usize::from(b));
        let kind = match kind {
            0 => Kind::Nothing,
            1 => Kind::Empty,
            2 | 6 => Kind::Letter(Letter { a, b, outside: kind == 6 }),
            3 => Kind::Or(r1, r2),
            4 => Kind::Seq(r1, r2),
            _ => Kind::Star(r1),
        };
        let children = kind.children();
        if children.iter().any(|&child| child >= k) {
            return refuse(5, k);
        }
        let twice = children.len() == 2 && children[0] == children[1];
        let named = |child: &usize| records.iter().any(|r| r.kind.children().contains(child));
        if twice || children.iter().any(named) {
            return refuse(6, k);
        }
        records.push(Record { kind, tag });
    }
    Ok(Table { records })
}

#[cfg(test)]
mod tests {
    use super::*;

    fn answer(bytes: &[u8]) -> (u32, u32) {
        match check(bytes) {
            Ok(t) => (0, t.records.len() as u32),
            Err(r) => (r.number, r.detail),
        }
    }

    #[test]
    fn each_refusal() {
        assert_eq!(answer(&[]), (1, 0));
        assert_eq!(answer(&[1, 0, 0]), (1, 0));
        assert_eq!(answer(&[1, 0, 0, 0].repeat(255)), (0, 255));
        assert_eq!(answer(&[1, 0, 0, 0].repeat(256)), (1, 0));
        assert_eq!(answer(&[1, 0, 0, 9, 7, 9, 9, 0]), (2, 1));
        assert_eq!(answer(&[0, 1, 0, 0]), (3, 0));
        assert_eq!(answer(&[1, 0, 1, 0]), (3, 0));
        assert_eq!(answer(&[1, 0, 0, 0, 5, 7, 1, 0]), (3, 1));
        assert_eq!(answer(&[2, 5, 4, 0]), (4, 0));
        assert_eq!(answer(&[2, 5, 5, 0]), (0, 1));
        assert_eq!(answer(&[1, 0, 0, 0, 6, 5, 4, 0]), (4, 1));
        assert_eq!(answer(&[6, 5, 5, 0]), (0, 1));
        assert_eq!(answer(&[6, 0, 255, 0]), (0, 1));
        assert_eq!(answer(&[1, 0, 0, 0, 5, 1, 0, 0]), (5, 1));
        assert_eq!(answer(&[1, 0, 0, 0, 3, 0, 1, 0]), (5, 1));
        assert_eq!(answer(&[1, 0, 0, 0, 3, 0, 0, 0]), (6, 1));
        assert_eq!(answer(&[1, 0, 0, 0, 5, 0, 0, 0, 5, 0, 0, 0]), (6, 2));
    }

    #[test]
    fn bytes_and_back() {
        let bytes = [
            2, 97, 98, 1, 1, 0, 0, 0, 4, 1, 0, 3, 5, 2, 0, 4, 0, 0, 0, 5, 3, 4, 3, 6, 6, 97, 98, 7,
        ];
        assert_eq!(check(&bytes).unwrap().bytes(), bytes);
    }

    #[test]
    fn letters() {
        let held = |letter: Letter| (0..=255).filter(|&c| letter.holds(c)).collect::<Vec<u8>>();
        let nothing: Vec<u8> = vec![];
        assert_eq!(held(Letter::range(5, 5)), [5]);
        assert_eq!(held(Letter::range(254, 255)), [254, 255]);
        assert_eq!(held(Letter::other(0, 255)), nothing);
        assert_eq!(held(Letter::other(1, 255)), [0]);
        assert_eq!(held(Letter::other(0, 253)), [254, 255]);
        assert_eq!(held(Letter::other(2, 253)), [0, 1, 254, 255]);
        let all_but_5: Vec<u8> = (0..5).chain(6..=255).collect();
        assert_eq!(held(Letter::other(5, 5)), all_but_5);
    }
}
