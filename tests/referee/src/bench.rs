//! The lines on the bench of document 01: tables T1 to T4, cases A to J and
//! the edges. And lines for Other, for empty tagged parts, for the notation, for
//! names that must come first, for lengths and record numbers that are not the
//! true ones, for pages, and for alternatives, requests 1 to 3, 5, 6 and 8 to 10
//! of document 02.

use crate::calls::{self, Reader};
use crate::page::{Page, Rooms, Rules, Who};
use crate::pairs::Pair;

pub const T1: &[u8] = &[
    2, 0x61, 0x61, 1, 2, 0x61, 0x61, 0, 2, 0x62, 0x62, 0, 4, 1, 2, 2, 2, 0x62, 0x62, 0, 2, 0x63,
    0x63, 0, 4, 4, 5, 3, 3, 0, 3, 0, 3, 7, 6, 0, 5, 8, 0, 0,
];
pub const T2: &[u8] = &[
    2, 0x61, 0x61, 0, 1, 0, 0, 0, 3, 0, 1, 0, 2, 0x62, 0x62, 0, 2, 0x61, 0x61, 0, 2, 0x62, 0x62, 0,
    4, 4, 5, 0, 3, 3, 6, 0, 4, 2, 7, 0,
];
pub const T3: &[u8] = &[1, 0, 0, 0, 5, 0, 0, 0];
pub const T4: &[u8] = &[1, 0, 0, 7];

/// A remark, tagged 1, up to the semicolon.
const REMARK: &[u8] = &[6, 0x3b, 0x3b, 0, 5, 0, 0, 1, 2, 0x3b, 0x3b, 0, 4, 1, 2, 0];
/// No byte, all but 5, and all but the digits.
const NO_BYTE: &[u8] = &[6, 0, 255, 0];
const NOT_5: &[u8] = &[6, 5, 5, 0];
const NO_DIGIT: &[u8] = &[6, 0x30, 0x39, 0];

/// a, Empty and b, tagged 1, 2 and 3, and the reading of ab.
const BETWEEN: &[u8] = &[2, 0x61, 0x61, 1, 1, 0, 0, 2, 2, 0x62, 0x62, 3, 4, 1, 2, 0, 4, 0, 3, 0];
const BETWEEN_READING: &[u8] = &[4, 0, 2, 4, 1, 0x61, 1, 0, 4, 0, 1, 3, 0, 0, 0, 1, 1, 0x62, 1, 2];
/// Two Empties, tagged 1 and 2, in a Seq, tagged 3.
const EMPTIES: &[u8] = &[1, 0, 0, 1, 1, 0, 0, 2, 4, 0, 1, 3];
const EMPTIES_READING: &[u8] = &[4, 0, 0, 2, 0, 0, 0, 0, 0, 0, 0, 1];
/// g or Empty, tagged 1, in front of a, tagged 2.
const OPTIONAL: &[u8] = &[2, 0x67, 0x67, 0, 1, 0, 0, 0, 3, 0, 1, 1, 2, 0x61, 0x61, 2, 4, 2, 3, 0];
const ABSENT: &[u8] = &[4, 0, 1, 4, 3, 0, 0, 2, 0, 0, 0, 1, 1, 0x61, 1, 3];
const THERE: &[u8] = &[4, 0, 2, 4, 2, 0, 1, 2, 1, 0x67, 1, 0, 1, 0x61, 1, 3];
/// a*, tagged 1, in front of b, tagged 2.
const STAR_FIRST: &[u8] = &[2, 0x61, 0x61, 0, 5, 0, 0, 1, 2, 0x62, 0x62, 2, 4, 1, 2, 0];
const NO_ITERATION: &[u8] = &[4, 0, 1, 3, 5, 0, 0, 1, 1, 0x62, 1, 2];
const ONE_ITERATION: &[u8] = &[4, 0, 2, 3, 5, 1, 1, 1, 1, 0x61, 1, 0, 1, 0x62, 1, 2];

/// Texts of the notation and their tables.
const INSIDE: &[(&str, &[u8])] = &[
    (
        "(a#001|(ab)#002|(bc)#003)*",
        &[
            2, 0x61, 0x61, 1, 2, 0x61, 0x61, 0, 2, 0x62, 0x62, 0, 4, 1, 2, 2, 3, 0, 3, 0, 2, 0x62,
            0x62, 0, 2, 0x63, 0x63, 0, 4, 5, 6, 3, 3, 4, 7, 0, 5, 8, 0, 0,
        ],
    ),
    ("a", &[2, 0x61, 0x61, 0]),
    ("((a))", &[2, 0x61, 0x61, 0]),
    ("\\a", &[2, 0x61, 0x61, 0]),
    ("[a-a]", &[2, 0x61, 0x61, 0]),
    ("()", &[1, 0, 0, 0]),
    ("(())", &[1, 0, 0, 0]),
    ("( )", &[2, 0x20, 0x20, 0]),
    ("\n", &[2, 0x0a, 0x0a, 0]),
    ("\0", &[2, 0, 0, 0]),
    ("-", &[2, 0x2d, 0x2d, 0]),
    ("0", &[2, 0x30, 0x30, 0]),
    ("\\|", &[2, 0x7c, 0x7c, 0]),
    ("\\\\", &[2, 0x5c, 0x5c, 0]),
    ("\\#", &[2, 0x23, 0x23, 0]),
    ("[#-\\]", &[2, 0x23, 0x5c, 0]),
    ("[\\-]]", &[2, 0x5c, 0x5d, 0]),
    ("[]-]]", &[2, 0x5d, 0x5d, 0]),
    ("[---]", &[2, 0x2d, 0x2d, 0]),
    ("[[-a]", &[2, 0x5b, 0x61, 0]),
    ("a#255", &[2, 0x61, 0x61, 255]),
    ("(a)#007", &[2, 0x61, 0x61, 7]),
    ("(a#007)", &[2, 0x61, 0x61, 7]),
    ("()#100", &[1, 0, 0, 100]),
    ("a#0012", &[2, 0x61, 0x61, 1, 2, 0x32, 0x32, 0, 4, 0, 1, 0]),
    ("a*#002", &[2, 0x61, 0x61, 0, 5, 0, 0, 2]),
    ("a#001*#002", &[2, 0x61, 0x61, 1, 5, 0, 0, 2]),
    ("(a#001*)#002", &[2, 0x61, 0x61, 1, 5, 0, 0, 2]),
    ("a**", &[2, 0x61, 0x61, 0, 5, 0, 0, 0, 5, 1, 0, 0]),
    ("(a#001|b)#002", &[2, 0x61, 0x61, 1, 2, 0x62, 0x62, 0, 3, 0, 1, 2]),
    ("ab*", &[2, 0x61, 0x61, 0, 2, 0x62, 0x62, 0, 5, 1, 0, 0, 4, 0, 2, 0]),
    ("abc", &[2, 0x61, 0x61, 0, 2, 0x62, 0x62, 0, 4, 0, 1, 0, 2, 0x63, 0x63, 0, 4, 2, 3, 0]),
    ("a(bc)", &[2, 0x61, 0x61, 0, 2, 0x62, 0x62, 0, 2, 0x63, 0x63, 0, 4, 1, 2, 0, 4, 0, 3, 0]),
    ("a|b|c", &[2, 0x61, 0x61, 0, 2, 0x62, 0x62, 0, 3, 0, 1, 0, 2, 0x63, 0x63, 0, 3, 2, 3, 0]),
    ("a|(b|c)", &[2, 0x61, 0x61, 0, 2, 0x62, 0x62, 0, 2, 0x63, 0x63, 0, 3, 1, 2, 0, 3, 0, 3, 0]),
    ("a|bc", &[2, 0x61, 0x61, 0, 2, 0x62, 0x62, 0, 2, 0x63, 0x63, 0, 4, 1, 2, 0, 3, 0, 3, 0]),
    ("ab|c", &[2, 0x61, 0x61, 0, 2, 0x62, 0x62, 0, 4, 0, 1, 0, 2, 0x63, 0x63, 0, 3, 2, 3, 0]),
];

/// Texts outside the grammar, between blanks; none of them holds one.
const OUTSIDE: &str = "\
    | * *a a|* a| |a |a| a||b (|a) (a|) (|) (*) ( ) (a a) (() ()) ] a] [ [a [a- [a-b [a-b) [b-a] \
    [ab] [a+b] [] [a-bc] [\\a-b] \\ a\\ # #001 a# a#0 a#01 a#01a a#a01 a#0a1 a#000 a#256 a#999 a#1 \
    a#+01 a#-01 a#0:1 a#1/1 a#001#002 (a#001)#002 ((a#001))#002 (a#001)#001 a|#001 (#001) a#001##002";

/// The refusal of that number with detail 0.
pub const fn refusal(number: u64) -> u64 {
    number << 32
}

/// One request and the answer stated for it.
pub struct Stated {
    pub name: &'static str,
    pub request: Request,
    pub number: u64,
    pub written: Vec<u8>,
}

#[derive(Clone)]
pub enum Request {
    Check { table: Vec<u8> },
    Read { table: Vec<u8>, start: u64, line: Vec<u8>, work_len: usize },
    Spell { table: Vec<u8>, start: u64, reading: Vec<u8> },
    Compare { table: Vec<u8>, start: u64, first: Vec<u8>, second: Vec<u8> },
    Tokens { table: Vec<u8>, start: u64, reading: Vec<u8> },
    Compile { text: Vec<u8> },
    Order { tokens: Vec<u8>, pairs: Vec<Pair> },
    Page(Page),
    Apart { table: Vec<u8>, record: u64 },
}

impl Request {
    /// What the referee answers; what it writes goes to the buffer.
    pub fn answer(&self, reader: &mut Reader, out: &mut [u8]) -> u64 {
        match self {
            Request::Check { table } => calls::trace_check(table),
            Request::Read { table, start, line, work_len } => {
                reader.trace_read(table, *start, line, *work_len, out)
            }
            Request::Spell { table, start, reading } => {
                calls::trace_spell(table, *start, reading, out)
            }
            Request::Compare { table, start, first, second } => {
                calls::trace_compare(table, *start, first, second)
            }
            Request::Tokens { table, start, reading } => {
                calls::trace_tokens(table, *start, reading, out)
            }
            Request::Compile { text } => calls::trace_compile(text, out),
            Request::Order { tokens, pairs } => calls::trace_order(tokens, pairs),
            Request::Page(page) => page.answer(reader, out),
            Request::Apart { table, record } => calls::trace_apart(table, *record),
        }
    }

    /// The bytes of what a result counts: none where nothing is written.
    pub fn width(&self) -> usize {
        match self {
            Request::Check { .. }
            | Request::Compare { .. }
            | Request::Order { .. }
            | Request::Apart { .. } => 0,
            Request::Spell { .. } => 1,
            Request::Tokens { .. } => 3,
            Request::Read { .. } | Request::Compile { .. } | Request::Page(_) => 4,
        }
    }
}

fn read(name: &'static str, table: &[u8], line: &[u8], reading: &[u8]) -> Stated {
    let m = table.len() / 4;
    let number = if reading.is_empty() { refusal(8) } else { reading.len() as u64 / 4 };
    Stated {
        name,
        request: Request::Read {
            table: table.to_vec(),
            start: m as u64 - 1,
            line: line.to_vec(),
            work_len: m * (line.len() + 1) * (line.len() + 2) / 2,
        },
        number,
        written: reading.to_vec(),
    }
}

fn edge_read(
    name: &'static str,
    table: Vec<u8>,
    line: Vec<u8>,
    work_len: usize,
    number: u64,
    written: Vec<u8>,
) -> Stated {
    let start = table.len() as u64 / 4 - 1;
    Stated { name, request: Request::Read { table, start, line, work_len }, number, written }
}

pub fn stated() -> Vec<Stated> {
    let c = [
        5, 2, 3, 9, 2, 0, 1, 8, 2, 0, 1, 7, 1, 0x61, 1, 0, 3, 0, 2, 8, 4, 0, 2, 6, 1, 0x62, 1, 4,
        1, 0x63, 1, 5,
    ];
    let f = [4, 0, 2, 8, 2, 0, 1, 2, 1, 0x61, 1, 0, 2, 0, 1, 7, 1, 0x62, 1, 3];
    let g =
        [4, 0, 2, 8, 3, 0, 0, 2, 0, 0, 0, 1, 3, 0, 2, 7, 4, 0, 2, 6, 1, 0x61, 1, 4, 1, 0x62, 1, 5];
    let ab = [2, 0, 2, 8, 3, 0, 2, 7, 4, 0, 2, 3, 1, 0x61, 1, 1, 1, 0x62, 1, 2];
    let mut d = c.to_vec();
    d[1] = 3;
    d[2] = 5;
    d.extend(ab);
    let mut b = vec![5, 1, 2, 9];
    b.extend(ab);
    let remark = [4, 0, 3, 3, 5, 2, 2, 1, 1, 0x61, 1, 0, 1, 0x62, 1, 0, 1, 0x3b, 1, 2];
    let semicolon = [4, 0, 2, 3, 5, 1, 1, 1, 1, 0x3b, 1, 0, 1, 0x3b, 1, 2];
    let remark_empty = [4, 0, 1, 3, 5, 0, 0, 1, 1, 0x3b, 1, 2];
    // The edge lines are read by a*.
    let many = vec![2, 0x61, 0x61, 0, 5, 0, 0, 0];
    let mut long = vec![5, 255, 255, 1];
    long.extend([1, 0x61, 1, 0].repeat(255));
    let compare = |name, first: &[u8], second: &[u8], number| Stated {
        name,
        request: Request::Compare {
            table: T2.to_vec(),
            start: 8,
            first: first.to_vec(),
            second: second.to_vec(),
        },
        number,
        written: vec![],
    };
    let tokens = |name, table: &[u8], reading: &[u8], list: &[u8]| Stated {
        name,
        request: Request::Tokens {
            table: table.to_vec(),
            start: table.len() as u64 / 4 - 1,
            reading: reading.to_vec(),
        },
        number: list.len() as u64 / 3,
        written: list.to_vec(),
    };
    let spell = |name, table: &[u8], reading: &[u8], line: Option<&[u8]>| Stated {
        name,
        request: Request::Spell {
            table: table.to_vec(),
            start: table.len() as u64 / 4 - 1,
            reading: reading.to_vec(),
        },
        number: line.map_or(refusal(12), |line| line.len() as u64),
        written: line.unwrap_or_default().to_vec(),
    };
    let check = |name, table: Vec<u8>, number| Stated {
        name,
        request: Request::Check { table },
        number,
        written: vec![],
    };
    let compile = |name, text: &[u8], number, table: &[u8]| Stated {
        name,
        request: Request::Compile { text: text.to_vec() },
        number,
        written: table.to_vec(),
    };
    let inside = |&(text, table): &(&'static str, &[u8])| {
        compile(text, text.as_bytes(), table.len() as u64 / 4, table)
    };
    let mut texts: Vec<Stated> = INSIDE.iter().map(inside).collect();
    for text in OUTSIDE.split_whitespace().chain([""]) {
        texts.push(compile(text, text.as_bytes(), refusal(15), &[]));
    }
    texts.push(compile("4,096 bytes", &[0x61; 4096], refusal(16), &[]));
    texts.push(compile("4,097 bytes", &[0x61; 4097], refusal(15), &[]));
    texts.push(compile("the highest range", b"[\0-\xff]", 1, &[2, 0, 255, 0]));
    let mut lines = vec![
        read("A", T1, b"", &[5, 0, 0, 9]),
        read("B", T1, b"ab", &b),
        read("C", T1, b"abc", &c),
        read("D", T1, b"abcab", &d),
        tokens("D", T1, &d, &[1, 0, 1, 3, 1, 2, 2, 3, 2]),
        read("E", T1, b"b", &[]),
        read("F", T2, b"ab", &f),
        compare("G", &f, &g, 1),
        compare("G turned", &g, &f, 2),
        compare("G same", &g, &g, 0),
        spell("H", T3, &[5, 1, 0, 1, 0, 0, 0, 0], None),
        read("I", T3, b"", &[5, 0, 0, 1]),
        read("J", T4, b"", &[0, 0, 0, 0]),
        tokens("J", T4, &[0, 0, 0, 0], &[]),
        tokens("program, abc", T1, &c, &[1, 0, 1, 3, 1, 2]),
        tokens("program, empty", T1, &[5, 0, 0, 9], &[]),
        check("T1", T1.to_vec(), 10),
        check("T2", T2.to_vec(), 9),
        check("T3", T3.to_vec(), 2),
        check("T4", T4.to_vec(), 1),
        check("table of 1,020", [1, 0, 0, 0].repeat(255), 255),
        check("table of 1,024", [1, 0, 0, 0].repeat(256), refusal(1)),
        edge_read("line of 255", many.clone(), vec![0x61; 255], 65_792, 256, long),
        edge_read("line of 256", many, vec![0x61; 256], 70_000, refusal(7), vec![]),
        edge_read("work of 100", T1.to_vec(), b"abc".to_vec(), 100, 8, c.to_vec()),
        edge_read("work of 99", T1.to_vec(), b"abc".to_vec(), 99, refusal(10), vec![]),
        check("remark", REMARK.to_vec(), 4),
        read("remark", REMARK, b"ab;", &remark),
        spell("remark", REMARK, &remark, Some(b"ab;")),
        tokens("remark", REMARK, &remark, &[1, 0, 2]),
        read("remark, empty", REMARK, b";", &remark_empty),
        tokens("remark, empty", REMARK, &remark_empty, &[]),
        read("remark, a semicolon inside", REMARK, b"a;b;", &[]),
        read("remark, no semicolon", REMARK, b"ab", &[]),
        spell("remark, a semicolon inside", REMARK, &semicolon, None),
        check("Other of no byte", NO_BYTE.to_vec(), 1),
        read("Other of no byte", NO_BYTE, b"a", &[]),
        read("Other of no byte, empty line", NO_BYTE, b"", &[]),
        spell("Other of no byte", NO_BYTE, &[1, 0x61, 1, 0], None),
        read("Other below", NOT_5, &[4], &[1, 4, 1, 0]),
        read("Other above", NOT_5, &[6], &[1, 6, 1, 0]),
        read("Other at its bound", NOT_5, &[5], &[]),
        read("Other, lowest byte", NOT_5, &[0], &[1, 0, 1, 0]),
        read("Other, highest byte", NOT_5, &[255], &[1, 255, 1, 0]),
        read("Other, empty line", NOT_5, b"", &[]),
        read("Other, two bytes", NOT_5, &[4, 6], &[]),
        spell("Other at its bound", NOT_5, &[1, 5, 1, 0], None),
        read("Other below its lowest", NO_DIGIT, &[0x2f], &[1, 0x2f, 1, 0]),
        read("Other at its lowest", NO_DIGIT, &[0x30], &[]),
        read("Other at its highest", NO_DIGIT, &[0x39], &[]),
        read("Other above its highest", NO_DIGIT, &[0x3a], &[1, 0x3a, 1, 0]),
        check("Other with a above b", vec![1, 0, 0, 0, 6, 5, 4, 0], refusal(4) + 1),
        check("kind 7", vec![1, 0, 0, 0, 7, 0, 0, 0], refusal(2) + 1),
        read("empty between two bytes", BETWEEN, b"ab", BETWEEN_READING),
        tokens("empty between two bytes", BETWEEN, BETWEEN_READING, &[1, 0, 1, 3, 1, 1]),
        read("empty with tags inside", EMPTIES, b"", EMPTIES_READING),
        tokens("empty with tags inside", EMPTIES, EMPTIES_READING, &[]),
        read("optional, absent", OPTIONAL, b"a", ABSENT),
        tokens("optional, absent", OPTIONAL, ABSENT, &[2, 0, 1]),
        read("optional, there", OPTIONAL, b"ga", THERE),
        tokens("optional, there", OPTIONAL, THERE, &[1, 0, 1, 2, 1, 1]),
        read("no iteration", STAR_FIRST, b"b", NO_ITERATION),
        tokens("no iteration", STAR_FIRST, NO_ITERATION, &[2, 0, 1]),
        read("one iteration", STAR_FIRST, b"ab", ONE_ITERATION),
        tokens("one iteration", STAR_FIRST, ONE_ITERATION, &[1, 0, 1, 2, 1, 1]),
    ];
    lines.extend(wrong_ones(&b));
    lines.extend(texts);
    lines.extend(orders());
    lines.extend(pages());
    lines.extend(alternatives());
    lines
}

/// B's reading with a wrong length or record number, and a reading by a*a* of
/// 256 bytes, whose length can't be written.
fn wrong_ones(b: &[u8]) -> Vec<Stated> {
    let each = |name, table: &[u8], good: &[u8], bad: &[u8]| {
        let (start, t) = (table.len() as u64 / 4 - 1, || table.to_vec());
        let compare = |first: &[u8], second: &[u8]| {
            let (first, second) = (first.to_vec(), second.to_vec());
            Request::Compare { table: t(), start, first, second }
        };
        let requests = [
            (Request::Spell { table: t(), start, reading: bad.to_vec() }, refusal(12)),
            (Request::Tokens { table: t(), start, reading: bad.to_vec() }, refusal(12)),
            (compare(bad, good), refusal(12)),
            (compare(good, bad), refusal(12) + 1),
        ];
        let stated = |(request, number)| Stated { name, request, number, written: vec![] };
        requests.map(stated)
    };
    let mut lines = Vec::new();
    let one_byte: [(&str, usize, u8); 10] = [
        ("B, the root's length 1", 2, 1),
        ("B, the root's length 3", 2, 3),
        ("B, the root's length 0", 2, 0),
        ("B, the root's number 8", 3, 8),
        ("B, the root's number 10", 3, 10),
        ("B, the Seq's length that of its first part", 14, 1),
        ("B, the Seq's number that of its first part", 15, 1),
        ("B, Right's number that of the other alternative's part", 11, 0),
        ("B, a Byte's length 0", 18, 0),
        ("B, a Byte's number that of the other a", 19, 0),
    ];
    for (name, at, byte) in one_byte {
        let mut bad = b.to_vec();
        bad[at] = byte;
        lines.extend(each(name, T1, b, &bad));
    }
    let two_stars = [2, 0x61, 0x61, 0, 5, 0, 0, 0, 2, 0x61, 0x61, 0, 5, 2, 0, 0, 4, 1, 3, 0];
    let seconds: [&[u8]; 2] = [&[5, 0, 0, 3], &[5, 1, 1, 3, 1, 0x61, 1, 2]];
    let read_as = |length: u8, second: &[u8]| {
        [&[4, 0, length, 4, 5, 255, 255, 1], &[1, 0x61, 1, 0].repeat(255)[..], second].concat()
    };
    let good = read_as(255, seconds[0]);
    lines.push(Stated {
        name: "255 bytes",
        request: Request::Spell { table: two_stars.to_vec(), start: 4, reading: good.clone() },
        number: 255,
        written: vec![0x61; 255],
    });
    for length in 0..=255 {
        lines.extend(each("256 bytes", &two_stars, &good, &read_as(length, seconds[1])));
    }
    lines
}

/// Token lists by their names, lift 8 and brake 9, with pairs of names.
fn orders() -> Vec<Stated> {
    let order = |name, names: &[u8], over: usize, pairs: &[(u8, u8)], number| {
        let mut tokens: Vec<u8> = names.iter().flat_map(|&name| [name, 9, 8]).collect();
        tokens.extend([9, 9].iter().take(over));
        let pairs = pairs.iter().map(|&(first, second)| Pair { first, second }).collect();
        Stated { name, request: Request::Order { tokens, pairs }, number, written: vec![] }
    };
    let lift_before_brake = &[(8, 9)];
    let mut last_broken = vec![(8, 9); 64];
    last_broken[63] = (7, 10);
    vec![
        order("lift, brake", &[1, 8, 9], 0, lift_before_brake, 3),
        order("brake alone", &[1, 9], 0, lift_before_brake, 1),
        order("lift behind the brake", &[1, 9, 8], 0, lift_before_brake, 1),
        order("lift alone", &[1, 8], 0, lift_before_brake, 2),
        order("two brakes for one lift", &[8, 1, 9, 9], 0, lift_before_brake, 4),
        order("neither", &[1, 2, 3], 0, lift_before_brake, 3),
        order("no token", &[], 0, lift_before_brake, 0),
        order("no pair", &[9, 9], 0, &[], 2),
        order("no token and no pair", &[], 0, &[], 0),
        order("one name twice", &[1, 8, 8], 0, &[(8, 8)], 1),
        order("one name twice, which no token has", &[1, 9], 0, &[(8, 8)], 2),
        order("a second name with two first names", &[1, 8, 9], 0, &[(8, 9), (7, 9)], 2),
        order("the later pair by the earlier token", &[9, 10], 0, &[(1, 10), (8, 9)], 0),
        order("each before the other", &[8, 9], 0, &[(8, 9), (9, 8)], 0),
        order("a chain", &[7, 8, 9], 0, &[(8, 9), (7, 8)], 3),
        order("names 0 and 255", &[0, 255], 0, &[(0, 255)], 2),
        order("names 255 and 0", &[0, 255], 0, &[(255, 0)], 0),
        order("64 pairs, the last broken", &[8, 9, 10], 0, &last_broken, 2),
        order("65 pairs", &[8, 9], 0, &[(8, 9); 65], refusal(17)),
        order("65 pairs and a byte over", &[8, 9], 1, &[(8, 9); 65], refusal(17)),
        order("a byte over", &[8, 9], 1, lift_before_brake, refusal(18)),
        order("two bytes over", &[8, 9], 2, lift_before_brake, refusal(18)),
        order("a byte over, and broken", &[9], 1, lift_before_brake, refusal(18)),
        order("a byte alone", &[], 1, &[], refusal(18)),
    ]
}

/// Pages by T1, whose names are 1 to 3 and tell the texts, and by digits; by page
/// rules that read the class bytes one by one, whichever they are, and by some that
/// do not.
fn pages() -> Vec<Stated> {
    let rules = |table: &[u8]| Rules { table: table.to_vec(), start: table.len() as u64 / 4 - 1 };
    let each = [2, 0, 255, 0, 5, 0, 0, 0];
    let ample = Rooms { work: 70_000, reading: 400, first: 30, second: 30 };
    let by = |lines: &[u8], name, text: &[u8], runs: &[u8], rooms, number, written| {
        let (by_lines, by_runs) = (rules(lines), rules(runs));
        let request = Request::Page(Page { by_lines, by_runs, text: text.to_vec(), rooms });
        Stated { name, request, number, written }
    };
    let read_by = |lines: &[u8], name, text: &[u8], classes: &[u8]| {
        let n = classes.len() as u8;
        let reading = [5, n, n, 1].into_iter().chain(classes.iter().flat_map(|&c| [1, c, 1, 0]));
        by(lines, name, text, &each, ample, 1 + u64::from(n), reading.collect())
    };
    let read = |name, text: &[u8], classes: &[u8]| read_by(T1, name, text, classes);
    // Blanks, and then digits, which are a token 8.
    let digits = [2, 0x20, 0x20, 0, 5, 0, 0, 0, 2, 0x30, 0x39, 0, 5, 2, 0, 8, 4, 1, 3, 0];
    let lift = |name, text: &[u8], classes: &[u8]| read_by(&digits, name, text, classes);
    let refused = |name, text: &[u8], runs: &[u8], rooms, who: Who, number| {
        by(T1, name, text, runs, rooms, who.names(number), vec![])
    };
    let short = |first, second| Rooms { first, second, ..ample };
    vec![
        read("an empty page", b"", &[]),
        read("a lone byte 10", b"\n", &[0]),
        read("no closing byte 10", b"ab", &[2]),
        read("a closing byte 10", b"ab\n", &[2]),
        read("an empty line at the end", b"ab\n\n", &[2, 0]),
        read("two lines alike", b"ab\nab\n", &[2]),
        read("one class, other names", b"aab\naab\nabc\nbca\nbcab", &[1, 1, 3, 3]),
        lift("29 and 31", b"29\n31\n", &[8, 8]),
        lift("31 twice", b"29\n31\n31\n", &[8, 8]),
        lift("31 at another offset", b"31\n  31\n 31\n", &[8]),
        lift("2 and 29, 29 and 2", b"2\n29\n2\n", &[8, 8, 8]),
        lift("no token, other blanks", b"\n  \n \n", &[0]),
        read("a run, and again", b"a\na\nab\na\n", &[1, 2, 1]),
        read("one name more", b"a\naa\na", &[1, 1, 1]),
        read("255 lines", &b"\n".repeat(255), &[0]),
        refused("256 lines", &b"\n".repeat(256), &each, Rooms::NONE, Who::Page, refusal(20)),
        refused("line 1 by 8", b"a\nb\nb", &each, ample, Who::Line, refusal(8) + 1),
        refused("line 1 by 11", b"ab\nab", &each, short(3, 2), Who::Line, refusal(11) + 1),
        refused("line 0 by 11", b"ab\nab", &each, short(2, 3), Who::Line, refusal(11)),
        refused("the page by 8", b"ab\na", &[2, 2, 2, 0], ample, Who::Page, refusal(8)),
        refused("the page's rules by 2", b"b", &[7, 0, 0, 0], ample, Who::PageRules, refusal(2)),
    ]
}

/// Records of T1 and T2, and the last records of short texts, by what is seen of
/// their alternatives.
fn alternatives() -> Vec<Stated> {
    let apart = |name, table: &[u8], record, number| Stated {
        name,
        request: Request::Apart { table: table.to_vec(), record },
        number,
        written: vec![],
    };
    let then_nothing = [2, 0x61, 0x61, 0, 0, 0, 0, 0, 4, 0, 1, 0, 2, 0x61, 0x61, 0, 3, 2, 3, 0];
    let between = [
        2, 0x61, 0x61, 0, 0, 0, 0, 0, 4, 0, 1, 0, 2, 0x61, 0x61, 0, 4, 2, 3, 0, 2, 0x61, 0x61, 0,
        3, 4, 5, 0,
    ];
    let mut lines = vec![
        apart("a and Nothing, or a", &then_nothing, 4, 1),
        apart("a, Nothing and a, or a", &between, 6, 0),
        apart("a or ab", T1, 7, 1),
        apart("a or ab, or bc", T1, 8, 1),
        apart("a or nothing", T2, 2, 1),
        apart("b or ab", T2, 7, 1),
        apart("a Range", T1, 0, 0),
        apart("a Seq", T1, 6, 0),
        apart("a Star", T1, 9, 0),
        apart("an Empty", T4, 0, 0),
        apart("an Other", NO_BYTE, 0, 0),
        apart("the record behind the last", T1, 10, refusal(9)),
        apart("a record number of 2^32 and one", T1, (1 << 32) + 7, refusal(9)),
        apart("a record number of 2^63 and one", T1, (1 << 63) + 7, refusal(9)),
        apart("the largest record number", T1, u64::MAX, refusal(9)),
        apart("no table", &[], 0, refusal(1)),
        apart("a kind before the record number", &[1, 0, 0, 0, 7, 0, 0, 0], 9, refusal(2) + 1),
        apart("one child twice", &[1, 0, 0, 0, 3, 0, 0, 0], 1, refusal(6) + 1),
        apart("Nothing or Nothing", &[0, 0, 0, 0, 0, 0, 0, 0, 3, 0, 1, 0], 2, 1),
        apart("no byte or 5", &[6, 0, 255, 0, 2, 5, 5, 0, 3, 0, 1, 0], 2, 1),
        apart("all but 5, or 5", &[6, 5, 5, 0, 2, 5, 5, 0, 3, 0, 1, 0], 2, 1),
        apart("all but 5, or 6", &[6, 5, 5, 0, 2, 6, 6, 0, 3, 0, 1, 0], 2, 0),
        apart("255 or 255", &[2, 255, 255, 0, 2, 255, 255, 0, 3, 0, 1, 0], 2, 0),
        apart("0 or 0", &[2, 0, 0, 0, 2, 0, 0, 0, 3, 0, 1, 0], 2, 0),
        apart("0 or 255", &[2, 0, 0, 0, 2, 255, 255, 0, 3, 1, 0, 0], 2, 1),
    ];
    let texts = [
        ("a|b", 1),
        ("a|a", 0),
        ("a*|b*", 0),
        ("a*|bb*", 1),
        ("()|()", 0),
        ("ab|ac", 1),
        ("ab|cb", 1),
        ("ab|ab", 0),
        ("axb|ayb", 0),
        ("[0-9]|[0-9][0-9]", 0),
        ("(b)#001|([a-z]*)#002", 0),
        ("a*b|bc", 1),
        ("a*b|b", 0),
        ("(a|b)|(b|c)", 0),
        ("(a|())b|(c|())d", 1),
        ("(a|())b|(c|())b", 0),
    ];
    for (text, number) in texts {
        let mut table = [0; 64];
        let records = calls::trace_compile(text.as_bytes(), &mut table);
        lines.push(apart(text, &table[..4 * records as usize], records - 1, number));
    }
    lines
}

#[cfg(test)]
mod tests {
    use super::*;
    use crate::calls::{trace_compare, trace_compile, trace_spell, trace_tokens};
    use crate::order::rank;
    use crate::random::{
        all_lines, all_tables, changed_line, damaged_reading, rival, table, Grower, Rng, Room,
    };
    use crate::rivals::rivals;
    use crate::table::{check, Kind, Letter, Table};
    use crate::value::{fit, Value, RECORD};
    use crate::{posix, relation};
    use std::cmp::Ordering;

    #[test]
    fn stated_answers() {
        let mut reader = Reader::default();
        for case in stated() {
            let mut out = vec![0xa5; case.written.len() + 600];
            let number = case.request.answer(&mut reader, &mut out);
            let (front, rest) = out.split_at(case.written.len());
            assert_eq!(number, case.number, "{}", case.name);
            assert_eq!(front, case.written, "{}", case.name);
            assert!(rest.iter().all(|&c| c == 0xa5), "{}", case.name);
        }
    }

    #[test]
    fn refusal_11_states_the_need() {
        let mut reader = Reader::default();
        let mut out = [0; 31];
        let answer = reader.trace_read(T1, 9, b"abc", 100, &mut out);
        assert_eq!(answer, (11 << 32) + 32);
        assert_eq!(out, [0; 31]);
        let reading = reader.reading(&check(T1).unwrap(), 9, b"abc").unwrap();
        assert_eq!(trace_spell(T1, 9, &reading, &mut out[..2]), (11 << 32) + 3);
        assert_eq!(trace_tokens(T1, 9, &reading, &mut out[..5]), (11 << 32) + 6);
        let between = trace_tokens(BETWEEN, 4, BETWEEN_READING, &mut out[..5]);
        assert_eq!(between, (11 << 32) + 6);
        assert_eq!(trace_compile(b"ab|c*", &mut out[..23]), (11 << 32) + 24);
        assert_eq!(out, [0; 31]);
    }

    #[test]
    fn order_of_refusals_in_compare() {
        let many = [2, 0x61, 0x61, 0, 5, 0, 0, 0, 5, 1, 0, 0];
        let mut over = vec![5, 2, 0, 2, 5, 255, 255, 1];
        over.extend([1, 0x61, 1, 0].repeat(255));
        over.extend([5, 1, 1, 1, 1, 0x61, 1, 0]);
        let one = [5, 1, 1, 2, 5, 1, 1, 1, 1, 0x61, 1, 0];
        let compare = |first: &[u8], second: &[u8]| trace_compare(&many, 2, first, second);
        assert_eq!(compare(&[0], &[0]), 12 << 32);
        assert_eq!(compare(&over, &[0]), 12 << 32);
        assert_eq!(compare(&over, &one), 12 << 32);
        assert_eq!(compare(&one, &over), (12 << 32) + 1);
        assert_eq!(compare(&one, &[5, 0, 1, 2]), (12 << 32) + 1);
        assert_eq!(compare(&one, &[5, 0, 0, 2]), 14 << 32);
        assert_eq!(compare(&one, &one), 0);
        assert_eq!(trace_compare(&many, 3, &[0], &[0]), 9 << 32);
    }

    /// s : k → v, read from the rules word by word, with L(k) as the set of
    /// lines that have a rival.
    fn holds(t: &Table, k: usize, s: &[u8], v: &Value) -> bool {
        let spells = |k: usize, s: &[u8]| !rivals(t, k, s).is_empty();
        let no_longer = |r1: usize, r2: usize, cut: usize| {
            !(cut + 1..=s.len()).any(|p| spells(r1, &s[..p]) && spells(r2, &s[p..]))
        };
        match (t.kind(k), v) {
            (Kind::Empty, Value::Void) => s.is_empty(),
            (Kind::Letter(letter), Value::Byte(c)) => s == [*c] && letter.holds(*c),
            (Kind::Or(r1, _), Value::Left(v)) => holds(t, r1, s, v),
            (Kind::Or(r1, r2), Value::Right(v)) => holds(t, r2, s, v) && !spells(r1, s),
            (Kind::Seq(r1, r2), Value::Seq(v1, v2)) => (0..=s.len()).any(|cut| {
                holds(t, r1, &s[..cut], v1) && holds(t, r2, &s[cut..], v2) && no_longer(r1, r2, cut)
            }),
            (Kind::Star(r), Value::Stars(vs)) => match vs.split_first() {
                None => s.is_empty(),
                Some((v, rest)) => (1..=s.len()).any(|cut| {
                    holds(t, r, &s[..cut], v)
                        && holds(t, k, &s[cut..], &Value::Stars(rest.to_vec()))
                        && no_longer(r, k, cut)
                }),
            },
            _ => false,
        }
    }

    /// Both roads give the one rival that the rules hold for, ranked ahead of
    /// all others.
    fn small(t: &Table, k: usize, line: &[u8]) {
        let all = rivals(t, k, line);
        let by_relation = relation::read(t, k, line);
        let by_derivatives = posix::read(t, k, line, 100_000).expect("short");
        assert_eq!(by_relation, by_derivatives);
        assert_eq!(by_relation.is_some(), !all.is_empty());
        for v in &all {
            let best = by_relation.as_ref().expect("some rival");
            assert_eq!(holds(t, k, line, v), v == best);
            let ranked = if v == best { Ordering::Equal } else { Ordering::Less };
            assert_eq!(rank(best, v), ranked);
            assert_eq!(rank(v, best), ranked.reverse());
            assert_eq!(fit(t, k, &v.reading(t, k)).as_ref(), Some(v));
            assert_eq!(v.line(), line);
            let bound = t.records.len() * line.len().max(1);
            assert!(v.reading(t, k).len() / RECORD <= bound);
        }
    }

    #[test]
    fn small_tables() {
        let lines = all_lines(3);
        for records in 1..=3 {
            all_tables(records, &mut |t| {
                for k in 0..records {
                    lines.iter().for_each(|line| small(t, k, line));
                }
            });
        }
    }

    #[test]
    fn random_small_tables() {
        let mut rng = Rng::new(1);
        for _ in 0..3000 {
            let records = 1 + rng.below(9);
            let t = table(&mut rng, records);
            let k = records - 1;
            let mut room = Room { bytes: 3, eager: false };
            if let Some(v) = Grower::new(&t).value(&mut rng, k, &mut room) {
                let line = v.line();
                assert_eq!(fit(&t, k, &v.reading(&t, k)), (line.len() < 256).then_some(v));
                if line.len() <= 4 {
                    small(&t, k, &line);
                }
            }
        }
    }

    /// A random table of up to so many records, its last record, and a value of
    /// that record with room for so many bytes, if there is one.
    fn drawn(rng: &mut Rng, most: usize, bytes: isize) -> Option<(Table, usize, Value)> {
        let records = 1 + rng.below(most);
        let t = table(rng, records);
        let k = records - 1;
        let v = Grower::new(&t).value(rng, k, &mut Room { bytes, eager: false })?;
        Some((t, k, v))
    }

    #[test]
    fn longer_lines_by_both_roads() {
        let mut rng = Rng::new(2);
        let mut carried = 0;
        for _ in 0..300 {
            let Some((t, k, v)) = drawn(&mut rng, 40, 60) else { continue };
            let mut line = v.line();
            line.truncate(80);
            let Some(one) = posix::read(&t, k, &line, 60_000) else { continue };
            carried += 1;
            assert_eq!(one, relation::read(&t, k, &line));
            if let Some(best) = one {
                let other = rival(&mut rng, &t, k, &line).expect("a rival");
                assert_ne!(rank(&best, &other), Ordering::Greater);
            }
        }
        assert!(carried > 100);
    }

    #[test]
    fn what_fits_is_written_back() {
        let mut rng = Rng::new(3);
        let mut fitted = 0;
        for _ in 0..20_000 {
            let Some((t, k, v)) = drawn(&mut rng, 8, 6) else { continue };
            let damaged = damaged_reading(&mut rng, &v.reading(&t, k));
            if let Some(w) = fit(&t, k, &damaged) {
                fitted += 1;
                assert_eq!(w.reading(&t, k), damaged);
                let line = w.line();
                if line.len() <= 3 {
                    assert!(rivals(&t, k, &line).contains(&w));
                }
            }
        }
        assert!(fitted > 20);
    }

    /// The table with another kind in place of each Other.
    fn without_others(t: &Table, kind: Kind) -> Table {
        let mut t = t.clone();
        for record in &mut t.records {
            if matches!(record.kind, Kind::Letter(letter) if letter.outside) {
                record.kind = kind;
            }
        }
        t
    }

    /// Of the random readings and lines enough hang on what an Other holds,
    /// and on what it doesn't hold.
    #[test]
    fn others_are_met_and_missed() {
        let mut rng = Rng::new(4);
        let (mut met, mut unfit, mut refused) = (0, 0, 0);
        for _ in 0..4000 {
            let Some((t, k, v)) = drawn(&mut rng, 12, 12) else { continue };
            let none = without_others(&t, Kind::Nothing);
            let all = without_others(&t, Kind::Letter(Letter::range(0, 255)));
            met += u32::from(fit(&none, k, &v.reading(&t, k)).is_none());
            let damaged = damaged_reading(&mut rng, &v.reading(&t, k));
            let fits = |t| fit(t, k, &damaged).is_some();
            unfit += u32::from(fits(&all) && !fits(&t));
            let line = changed_line(&mut rng, &v.line());
            let reads = |t| relation::read(t, k, &line).is_some();
            refused += u32::from(reads(&all) && !reads(&t));
        }
        assert!(met > 1000 && unfit > 20 && refused > 50);
    }

    /// The outermost tagged ones of these parts and the parts inside them.
    fn outermost<'a>(t: &Table, parts: Vec<(usize, &'a Value)>) -> Vec<(usize, &'a Value)> {
        let mut tagged = Vec::new();
        for (k, v) in parts {
            if t.tag(k) != 0 {
                tagged.push((k, v));
            } else {
                tagged.extend(outermost(t, v.parts(t.kind(k))));
            }
        }
        tagged
    }

    /// Of the random readings enough have an empty outermost tagged part, one
    /// beside a part of some bytes, and one with tagged parts inside it.
    #[test]
    fn empty_parts_are_met() {
        let mut rng = Rng::new(5);
        let (mut met, mut beside, mut around) = (0, 0, 0);
        for _ in 0..4000 {
            let Some((t, k, v)) = drawn(&mut rng, 12, 12) else { continue };
            let parts = outermost(&t, vec![(k, &v)]).into_iter();
            let (empty, full): (Vec<_>, Vec<_>) = parts.partition(|(_, v)| v.line().is_empty());
            let holds_tags = |k, v: &Value| !outermost(&t, v.parts(t.kind(k))).is_empty();
            met += u32::from(!empty.is_empty());
            beside += u32::from(!empty.is_empty() && !full.is_empty());
            around += u32::from(empty.iter().any(|&(k, v)| holds_tags(k, v)));
            let mut out = vec![0; 3 * v.line().len()];
            let listed = trace_tokens(&t.bytes(), k as u64, &v.reading(&t, k), &mut out);
            assert_eq!(listed, full.len() as u64);
        }
        assert!(met > 200 && beside > 50 && around > 40);
    }
}
