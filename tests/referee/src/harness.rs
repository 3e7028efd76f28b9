//! Puts cases to the library and the referee, counts them, and stops at the
//! first failure after making it small.

use crate::ffi::{self, Case, Lending};
use crate::script::Script;
use crate::shrink::{hex, show, shrink};
use referee::bench::Request;
use referee::calls::Reader;
use referee::live::{Facts, Typist};
use referee::page::{Page, Rooms, Rules};
use referee::pairs::Pair;
use referee::table::Table;
use std::collections::BTreeMap;
use std::time::Instant;

/// The answers met: the call, the refusal number (0 for a result), in Compare
/// the result or the detail, in Order whether a pair was broken, in Apart the
/// result, and of a live line the facts. Page is one call for each that it names.
type Met = BTreeMap<(&'static str, u64, u64), u64>;

/// Page, by the one that is named.
const PAGE: [&str; 4] = ["page", "page, line rules", "page, page rules", "page, a line"];

/// What each call can answer.
const ANSWERS: &[(&str, &[u64])] = &[
    ("check", &[0, 1, 2, 3, 4, 5, 6]),
    ("read", &[0, 1, 2, 3, 4, 5, 6, 7, 8, 9, 10, 11]),
    ("spell", &[0, 1, 2, 3, 4, 5, 6, 9, 11, 12]),
    ("tokens", &[0, 1, 2, 3, 4, 5, 6, 9, 11, 12]),
    ("compare", &[0, 1, 2, 3, 4, 5, 6, 9, 12, 14]),
    ("compile", &[0, 11, 15, 16]),
    ("order", &[0, 17, 18]),
    (PAGE[0], &[0, 8, 10, 11, 20]),
    (PAGE[1], &[1, 2, 3, 4, 5, 6, 9]),
    (PAGE[2], &[1, 2, 3, 4, 5, 6, 9]),
    (PAGE[3], &[7, 8, 10, 11]),
    ("apart", &[0, 1, 2, 3, 4, 5, 6, 9]),
    ("live_new", &[0, 1, 2, 3, 4, 5, 6, 9]),
    ("live_add", &[0, 1, 2, 3, 4, 5, 6, 7, 9, 10]),
    ("live_take_back", &[0, 1, 2, 3, 4, 5, 6, 7, 9, 10, 19]),
];

pub struct Harness {
    pub reader: Reader,
    typist: Typist,
    pub comparisons: u64,
    met: Met,
    lending: Lending,
    origin: String,
    since: Instant,
}

impl Harness {
    pub fn new(lending: Lending) -> Self {
        Harness {
            reader: Reader::default(),
            typist: Typist::default(),
            comparisons: 0,
            met: Met::new(),
            lending,
            origin: String::new(),
            since: Instant::now(),
        }
    }

    /// Says where the next cases come from, for the report of a failure.
    pub fn from(&mut self, origin: impl Into<String>) {
        self.origin = origin.into();
    }

    /// The library against the referee.
    pub fn put(&mut self, request: Request, out_len: usize) {
        let case = self.case(request, out_len);
        match ffi::compare(&mut self.reader, &case, self.lending) {
            Ok(number) => self.meet(&case.request, number),
            Err(message) => self.fail(&case, &message),
        }
    }

    /// The library against a stated answer.
    pub fn put_stated(&mut self, request: Request, out_len: usize, number: u64, written: &[u8]) {
        let case = self.case(request, out_len);
        if let Err(message) = ffi::against_written(&case, number, written, self.lending) {
            self.fail(&case, &message);
        }
    }

    /// The library against a known answer on a small stack or for a long list,
    /// where the referee itself isn't asked, not even after a failure.
    pub fn put_known(&mut self, request: Request, out_len: usize, number: u64, written: &[u8]) {
        let case = self.case(request, out_len);
        if let Err(message) = ffi::against_written(&case, number, written, self.lending) {
            println!("FAILED in {}: {message}", self.origin);
            if show(&case).len() < 20_000 {
                print!("{}", show(&case));
            }
            std::process::exit(1);
        }
    }

    /// What the library answers and writes, for what is said of several of its
    /// answers together.
    pub fn library(&mut self, request: Request, out_len: usize) -> (u64, Vec<u8>) {
        let case = self.case(request, out_len);
        ffi::library(&case, self.lending)
    }

    /// Stops at something said of several answers that is not so, with the bytes
    /// that it is said of by their names.
    pub fn stop(&self, message: &str, bytes: &[(&str, &[u8])]) -> ! {
        println!("FAILED in {}: {message}", self.origin);
        bytes.iter().for_each(|(name, bytes)| println!("{name:<7} {}", hex(bytes)));
        std::process::exit(1);
    }

    fn case(&mut self, request: Request, out_len: usize) -> Case {
        self.comparisons += 1;
        Case { request, out_len, seed: (self.comparisons % 256) as u8 }
    }

    /// One line for a part, and the counts start again.
    pub fn done(&mut self, part: &str) {
        let seconds = self.since.elapsed().as_secs_f64();
        let (derived, direct) = (self.reader.by_derivatives, self.reader.by_relation_alone);
        print!("{part}: {} comparisons, {seconds:.1} s", self.comparisons);
        if derived + direct > 0 {
            print!(" ({derived} lines read by derivatives too, {direct} by the relation alone)");
        }
        println!();
        let met = std::mem::take(&mut self.met);
        *self = Harness { met, ..Harness::new(self.lending) };
    }

    /// A list of calls on a live line against the model.
    pub fn play(&mut self, script: &Script) {
        self.comparisons += script.calls.len() as u64 + 1;
        let typist = &mut self.typist;
        let mut facts = |table: &Table, k: usize, bytes: &[u8]| typist.facts(table, k, bytes);
        match script.play(self.lending, &mut facts) {
            Ok(answers) => answers.into_iter().for_each(|(call, number)| self.live(call, number)),
            Err(message) => {
                println!("FAILED in {}: {message}", self.origin);
                print!("{}", script.smallest(self.lending, &mut facts));
                std::process::exit(1);
            }
        }
    }

    /// The same on a small stack, where the facts are known in closed form.
    pub fn play_known(&mut self, script: &Script, facts: Facts) {
        self.comparisons += script.calls.len() as u64 + 1;
        if let Err(message) = script.play(self.lending, facts) {
            println!("FAILED in {}: {message}", self.origin);
            std::process::exit(1);
        }
    }

    fn live(&mut self, call: &'static str, number: u64) {
        let facts = if call == "live_new" { 0 } else { number & 0xffff_ffff };
        let rest = if number >> 32 == 0 { facts } else { 0 };
        *self.met.entry((call, number >> 32, rest)).or_default() += 1;
    }

    fn meet(&mut self, request: &Request, number: u64) {
        let ((who, refusal), rest) = (ffi::parts(number), number & 0xffff_ffff);
        let call = match request {
            Request::Page(_) => PAGE[who as usize],
            _ => call_name(request),
        };
        let rest = match (request, refusal) {
            (Request::Compare { .. }, 0 | 12) | (Request::Apart { .. }, 0) => rest,
            (Request::Order { tokens, .. }, 0) => u64::from(number < tokens.len() as u64 / 3),
            _ => 0,
        };
        *self.met.entry((call, refusal, rest)).or_default() += 1;
    }

    /// Says how often the rarest answer of each call was met; each must be.
    pub fn coverage(&self) -> bool {
        let mut whole = true;
        for &(call, refusals) in ANSWERS {
            let mut counts = Vec::new();
            for &refusal in refusals {
                let kinds: &[u64] = match (call, refusal) {
                    ("compare", 0) => &[0, 1, 2],
                    ("compare", 12) | ("order" | "apart", 0) => &[0, 1],
                    ("live_add" | "live_take_back", 0) => &[0, 2, 3],
                    _ => &[0],
                };
                for &rest in kinds {
                    let count = self.met.get(&(call, refusal, rest)).copied().unwrap_or(0);
                    if count == 0 {
                        println!("FAILED: {call} never gave {refusal} with {rest}");
                        whole = false;
                    }
                    counts.push((count, refusal));
                }
            }
            let (count, refusal) = counts.iter().min().expect("some answer");
            println!("answers of {call}: the rarest ({refusal}) met {count} times");
        }
        whole
    }

    fn fail(&self, case: &Case, message: &str) -> ! {
        println!("FAILED in {}: {message}", self.origin);
        let mut reader = Reader::default();
        let mut fails = |case: &Case| ffi::compare(&mut reader, case, self.lending).is_err();
        if fails(case) {
            let small = shrink(case, &mut fails);
            let why = ffi::compare(&mut reader, &small, self.lending).unwrap_err();
            println!("smallest case found: {why}");
            print!("{}", show(&small));
            let (number, written) = ffi::answer(&mut reader, &small);
            println!("answer  {}", ffi::name(number));
            println!("written {}", hex(&written));
        } else {
            println!("the case as it was put:");
            print!("{}", show(case));
        }
        std::process::exit(1);
    }
}

fn call_name(request: &Request) -> &'static str {
    match request {
        Request::Check { .. } => "check",
        Request::Read { .. } => "read",
        Request::Spell { .. } => "spell",
        Request::Tokens { .. } => "tokens",
        Request::Compare { .. } => "compare",
        Request::Compile { .. } => "compile",
        Request::Order { .. } => "order",
        Request::Page(_) => PAGE[0],
        Request::Apart { .. } => "apart",
    }
}

pub fn read(table: &[u8], start: u64, line: &[u8], work_len: usize) -> Request {
    Request::Read { table: table.to_vec(), start, line: line.to_vec(), work_len }
}

pub fn spell(table: &[u8], start: u64, reading: &[u8]) -> Request {
    Request::Spell { table: table.to_vec(), start, reading: reading.to_vec() }
}

pub fn tokens(table: &[u8], start: u64, reading: &[u8]) -> Request {
    Request::Tokens { table: table.to_vec(), start, reading: reading.to_vec() }
}

pub fn compare(table: &[u8], start: u64, first: &[u8], second: &[u8]) -> Request {
    Request::Compare {
        table: table.to_vec(),
        start,
        first: first.to_vec(),
        second: second.to_vec(),
    }
}

pub fn check(table: &[u8]) -> Request {
    Request::Check { table: table.to_vec() }
}

pub fn compile(text: &[u8]) -> Request {
    Request::Compile { text: text.to_vec() }
}

pub fn page(by_lines: &Rules, by_runs: &Rules, text: &[u8], rooms: Rooms) -> Request {
    let (by_lines, by_runs) = (by_lines.clone(), by_runs.clone());
    Request::Page(Page { by_lines, by_runs, text: text.to_vec(), rooms })
}

pub fn apart(table: &[u8], record: u64) -> Request {
    Request::Apart { table: table.to_vec(), record }
}

pub fn order(tokens: &[u8], pairs: &[Pair]) -> Request {
    Request::Order { tokens: tokens.to_vec(), pairs: pairs.to_vec() }
}
