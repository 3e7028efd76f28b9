//! The library under test: its prototypes, and requests put to it and to the
//! referee with every lent byte compared.

use referee::bench::Request;
use referee::calls::Reader;
use referee::live::Line;
use referee::page::{Page, Who};
use referee::pairs::Pair;

extern "C" {
    fn trace_check(table: *const u8, table_len: usize) -> u64;
    fn trace_read(
        table: *const u8,
        table_len: usize,
        start: u64,
        line: *const u8,
        line_len: usize,
        work: *mut u8,
        work_len: usize,
        out: *mut u8,
        out_len: usize,
    ) -> u64;
    fn trace_spell(
        table: *const u8,
        table_len: usize,
        start: u64,
        reading: *const u8,
        reading_len: usize,
        out: *mut u8,
        out_len: usize,
    ) -> u64;
    fn trace_compare(
        table: *const u8,
        table_len: usize,
        start: u64,
        first: *const u8,
        first_len: usize,
        second: *const u8,
        second_len: usize,
    ) -> u64;
    fn trace_tokens(
        table: *const u8,
        table_len: usize,
        start: u64,
        reading: *const u8,
        reading_len: usize,
        out: *mut u8,
        out_len: usize,
    ) -> u64;
    fn trace_compile(text: *const u8, text_len: usize, out: *mut u8, out_len: usize) -> u64;
    fn trace_order(
        tokens: *const u8,
        tokens_len: usize,
        pairs: *const Pair,
        pairs_len: usize,
    ) -> u64;
    fn trace_page(
        line_table: *const u8,
        line_table_len: usize,
        line_start: u64,
        page_table: *const u8,
        page_table_len: usize,
        page_start: u64,
        page: *const u8,
        page_len: usize,
        work: *mut u8,
        work_len: usize,
        reading: *mut u8,
        reading_len: usize,
        first: *mut u8,
        first_len: usize,
        second: *mut u8,
        second_len: usize,
        out: *mut u8,
        out_len: usize,
    ) -> u64;
    fn trace_apart(table: *const u8, table_len: usize, record: u64) -> u64;
    pub fn trace_live_new(line: *mut Line, table: *const u8, table_len: usize, start: u64) -> u64;
    pub fn trace_live_add(line: *mut Line, byte: u8, work: *mut u8, work_len: usize) -> u64;
    pub fn trace_live_take_back(line: *mut Line, work: *mut u8, work_len: usize) -> u64;
}

/// A request with the buffer lent for the answer and the pattern it holds.
#[derive(Clone)]
pub struct Case {
    pub request: Request,
    pub out_len: usize,
    pub seed: u8,
}

/// How buffers are lent: between guard bytes, or exactly sized on the heap so
/// that a memory checker sees each byte outside.
#[derive(Clone, Copy, PartialEq)]
pub enum Lending {
    Guarded,
    Exact,
}

/// The pattern goes round after this many bytes.
const PERIOD: usize = 251;

fn pattern_byte(seed: u8, i: usize) -> u8 {
    seed.wrapping_add((i % PERIOD) as u8).wrapping_mul(151)
}

fn pattern(seed: u8, len: usize) -> Vec<u8> {
    let once: Vec<u8> = (0..PERIOD.min(len)).map(|i| pattern_byte(seed, i)).collect();
    let mut bytes = Vec::with_capacity(len);
    while bytes.len() < len {
        let more = PERIOD.min(len - bytes.len());
        bytes.extend_from_slice(&once[..more]);
    }
    bytes
}

fn is_pattern(seed: u8, bytes: &[u8]) -> bool {
    let once = pattern(seed, PERIOD);
    bytes.chunks(PERIOD).all(|piece| *piece == once[..piece.len()])
}

/// A lent mutable slice.
pub struct Lent {
    bytes: Box<[u8]>,
    guard: usize,
    seed: u8,
}

impl Lent {
    pub fn new(len: usize, seed: u8, lending: Lending) -> Self {
        let guard = if lending == Lending::Guarded { 24 } else { 0 };
        let bytes = pattern(seed, len + 2 * guard).into_boxed_slice();
        Lent { bytes, guard, seed }
    }

    pub fn len(&self) -> usize {
        self.bytes.len() - 2 * self.guard
    }

    pub fn pointer(&mut self) -> *mut u8 {
        self.bytes[self.guard..].as_mut_ptr()
    }

    /// The bytes that were lent, as they are.
    fn inside(&self) -> &[u8] {
        &self.bytes[self.guard..self.bytes.len() - self.guard]
    }

    pub fn guards_hold(&self) -> bool {
        let end = self.bytes.len() - self.guard;
        let mut beside = (0..self.guard).chain(end..self.bytes.len());
        beside.all(|i| self.bytes[i] == pattern_byte(self.seed, i))
    }

    pub fn untouched(&self) -> bool {
        is_pattern(self.seed, &self.bytes)
    }
}

/// The bytes of the output buffer before a call.
fn fresh_out(case: &Case, lending: Lending) -> Vec<u8> {
    Lent::new(case.out_len, case.seed, lending).inside().to_vec()
}

/// What the referee answers: the number and the output buffer after the call.
fn expected(reader: &mut Reader, case: &Case, lending: Lending) -> (u64, Vec<u8>) {
    let mut out = fresh_out(case, lending);
    (case.request.answer(reader, &mut out), out)
}

/// What the referee answers: the number and the bytes it writes.
pub fn answer(reader: &mut Reader, case: &Case) -> (u64, Vec<u8>) {
    let (number, mut out) = expected(reader, case, Lending::Guarded);
    out.truncate(written_len(case, number));
    (number, out)
}

/// Puts the request to the library. Gives the number, the output buffer, and
/// what was wrong with the other lent bytes, if anything.
fn ask(case: &Case, lending: Lending) -> (u64, Vec<u8>, Option<&'static str>) {
    let mut out = Lent::new(case.out_len, case.seed, lending);
    let mut fault = None;
    let number = match &case.request {
        Request::Check { table } => {
            let t = table.clone();
            let number = unsafe { trace_check(t.as_ptr(), t.len()) };
            if t != *table {
                fault = Some("the table was changed");
            }
            number
        }
        Request::Read { table, start, line, work_len } => {
            let (t, l) = (table.clone(), line.clone());
            let mut work = Lent::new(*work_len, case.seed ^ 0x5a, lending);
            let number = unsafe {
                trace_read(
                    t.as_ptr(),
                    t.len(),
                    *start,
                    l.as_ptr(),
                    l.len(),
                    work.pointer(),
                    work.len(),
                    out.pointer(),
                    out.len(),
                )
            };
            let refusal = number >> 32;
            let free = refusal == 0 || refusal == 8 || refusal == 11;
            if t != *table || l != *line {
                fault = Some("the table or the line was changed");
            } else if !work.guards_hold() {
                fault = Some("a byte beside the work area was changed");
            } else if !free && !work.untouched() {
                fault = Some("the work area was changed");
            }
            number
        }
        Request::Spell { table, start, reading } | Request::Tokens { table, start, reading } => {
            let (t, r) = (table.clone(), reading.clone());
            let call = match &case.request {
                Request::Spell { .. } => trace_spell,
                _ => trace_tokens,
            };
            let number = unsafe {
                call(t.as_ptr(), t.len(), *start, r.as_ptr(), r.len(), out.pointer(), out.len())
            };
            if t != *table || r != *reading {
                fault = Some("the table or the reading was changed");
            }
            number
        }
        Request::Compare { table, start, first, second } => {
            let (t, v, w) = (table.clone(), first.clone(), second.clone());
            let number = unsafe {
                trace_compare(t.as_ptr(), t.len(), *start, v.as_ptr(), v.len(), w.as_ptr(), w.len())
            };
            if t != *table || v != *first || w != *second {
                fault = Some("the table or a reading was changed");
            }
            number
        }
        Request::Compile { text } => {
            let t = text.clone();
            let number = unsafe { trace_compile(t.as_ptr(), t.len(), out.pointer(), out.len()) };
            if t != *text {
                fault = Some("the text was changed");
            }
            number
        }
        Request::Order { tokens, pairs } => {
            let (t, p) = (tokens.clone(), pairs.clone());
            let number = unsafe { trace_order(t.as_ptr(), t.len(), p.as_ptr(), p.len()) };
            if t != *tokens || p != *pairs {
                fault = Some("the tokens or the pairs were changed");
            }
            number
        }
        Request::Page(Page { by_lines, by_runs, text, rooms }) => {
            let (l, r, t) = (by_lines.table.clone(), by_runs.table.clone(), text.clone());
            let lent = [rooms.work, rooms.reading, rooms.first, rooms.second];
            let mut lent = lent.map(|len| Lent::new(len, case.seed ^ 0x5a, lending));
            let [work, reading, first, second] = &mut lent;
            let number = unsafe {
                trace_page(
                    l.as_ptr(),
                    l.len(),
                    by_lines.start,
                    r.as_ptr(),
                    r.len(),
                    by_runs.start,
                    t.as_ptr(),
                    t.len(),
                    work.pointer(),
                    work.len(),
                    reading.pointer(),
                    reading.len(),
                    first.pointer(),
                    first.len(),
                    second.pointer(),
                    second.len(),
                    out.pointer(),
                    out.len(),
                )
            };
            let (who, refusal) = parts(number);
            let free =
                refusal != 20 && who != Who::LineRules as u64 && who != Who::PageRules as u64;
            if l != by_lines.table || r != by_runs.table || t != *text {
                fault = Some("a table or the page was changed");
            } else if !lent.iter().all(Lent::guards_hold) {
                fault = Some("a byte beside the work area or a buffer for lines was changed");
            } else if !free && !lent.iter().all(Lent::untouched) {
                fault = Some("the work area or a buffer for lines was changed");
            }
            number
        }
        Request::Apart { table, record } => {
            let t = table.clone();
            let number = unsafe { trace_apart(t.as_ptr(), t.len(), *record) };
            if t != *table {
                fault = Some("the table was changed");
            }
            number
        }
    };
    if !out.guards_hold() {
        fault = Some("a byte beside the output buffer was changed");
    }
    (number, out.inside().to_vec(), fault)
}

/// What the library answers: the number and the bytes it writes.
pub fn library(case: &Case, lending: Lending) -> (u64, Vec<u8>) {
    let (number, mut out, _) = ask(case, lending);
    out.truncate(written_len(case, number));
    (number, out)
}

/// How many bytes an answer writes.
fn written_len(case: &Case, number: u64) -> usize {
    if number >> 32 == 0 {
        number as usize * case.request.width()
    } else {
        0
    }
}

/// The one that an answer names, and the refusal's number, 0 for a result.
pub fn parts(number: u64) -> (u64, u64) {
    (number >> 56, number >> 32 & 0xff_ffff)
}

pub fn name(number: u64) -> String {
    match parts(number) {
        (0, 0) => format!("{number}"),
        (who, refusal) => {
            let whose = ["", " of the line rules", " of the page rules", " of a line"];
            let whose = whose.get(who as usize).unwrap_or(&" of no one");
            format!("refusal {refusal}{whose}, detail {}", number & 0xffff_ffff)
        }
    }
}

/// The library's answer against a stated one: the number, and the output
/// buffer as a whole.
fn against(case: &Case, number: u64, out: &[u8], lending: Lending) -> Result<(), String> {
    let (got, got_out, fault) = ask(case, lending);
    if got != number {
        return Err(format!("the answer is {}, it should be {}", name(got), name(number)));
    }
    if let Some(at) = (0..out.len()).find(|&i| out[i] != got_out[i]) {
        return Err(format!(
            "byte {at} of the output buffer is {:02x}, it should be {:02x}",
            got_out[at], out[at]
        ));
    }
    match fault {
        Some(fault) => Err(fault.to_string()),
        None => Ok(()),
    }
}

/// The library's answer against a stated number and the bytes it writes.
pub fn against_written(
    case: &Case,
    number: u64,
    written: &[u8],
    lending: Lending,
) -> Result<(), String> {
    let mut out = fresh_out(case, lending);
    out[..written.len()].copy_from_slice(written);
    against(case, number, &out, lending)
}

/// The library against the referee; gives the number they agree on.
pub fn compare(reader: &mut Reader, case: &Case, lending: Lending) -> Result<u64, String> {
    let (number, out) = expected(reader, case, lending);
    against(case, number, &out, lending)?;
    Ok(number)
}
