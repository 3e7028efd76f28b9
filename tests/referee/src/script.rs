//! Lists of calls on one live line, put to the library and to the model. The
//! struct is in one place from the first call to the last.

use crate::ffi::{self, Lending, Lent};
use crate::shrink::{hex, smaller_tables};
use referee::calls::work_need;
use referee::live::{trace_live_call, trace_live_new, Call, Facts, Line, MOST_BYTES, MOST_TABLE};
use referee::table::check;
use std::mem::MaybeUninit;
use std::ptr;
use std::time::{Duration, Instant};

/// How the line begins: by a call of its own, or filled by hand.
#[derive(Clone)]
pub enum Begin {
    New { table: Vec<u8>, start: u64 },
    Filled(Box<Line>),
}

/// The work area: so many bytes more than the call needs, so many in all, or a
/// null pointer with length 0.
#[derive(Clone, Copy, Debug)]
pub enum Work {
    Near(isize),
    Bytes(usize),
    Null,
}

#[derive(Clone)]
pub struct Script {
    pub begin: Begin,
    pub calls: Vec<(Call, Work)>,
    /// What the struct holds before it is made, and the pattern of the work areas.
    pub seed: u8,
}

const GUARD: usize = 24;

#[repr(C)]
struct Guarded {
    before: [u8; GUARD],
    line: MaybeUninit<Line>,
    after: [u8; GUARD],
}

/// The lent struct: between guard bytes, or by itself, with only its padding
/// written, so that a memory checker sees each byte outside and each that the
/// library has not written.
enum Held {
    Guarded(Box<Guarded>),
    Exact(Box<MaybeUninit<Line>>),
}

impl Held {
    fn new(lending: Lending, seed: u8) -> Self {
        let (before, after) = ([seed ^ 0xff; GUARD], [seed ^ 0xff; GUARD]);
        match lending {
            Lending::Guarded => {
                let line = MaybeUninit::new(Line::filled(seed));
                Held::Guarded(Box::new(Guarded { before, line, after }))
            }
            Lending::Exact => {
                let mut held = Held::Exact(Box::<Line>::new_uninit());
                held.pad(seed);
                held
            }
        }
    }

    /// Writes the padding.
    fn pad(&mut self, seed: u8) {
        let line = self.pointer();
        unsafe {
            ptr::addr_of_mut!((*line).gap).write([seed; 4]);
            ptr::addr_of_mut!((*line).end).write(seed);
        }
    }

    fn pointer(&mut self) -> *mut Line {
        match self {
            Held::Guarded(held) => held.line.as_mut_ptr(),
            Held::Exact(line) => line.as_mut_ptr(),
        }
    }

    /// The struct, once it is written.
    fn line(&self) -> Line {
        match self {
            Held::Guarded(held) => unsafe { held.line.assume_init_ref().clone() },
            Held::Exact(line) => unsafe { line.assume_init_ref().clone() },
        }
    }

    fn guards_hold(&self, seed: u8) -> bool {
        match self {
            Held::Guarded(held) => {
                held.before == [seed ^ 0xff; GUARD] && held.after == [seed ^ 0xff; GUARD]
            }
            Held::Exact(_) => true,
        }
    }
}

/// The work area that the call needs; some bytes where the line is out of order.
fn need(line: &Line, call: Call) -> usize {
    if line.table_len > MOST_TABLE || line.count > MOST_BYTES + 1 {
        return 64;
    }
    work_need(line.table_len / 4, call.count(line.count))
}

fn work_len(line: &Line, call: Call, work: Work) -> usize {
    match work {
        Work::Near(more) => need(line, call).saturating_add_signed(more),
        Work::Bytes(bytes) => bytes,
        Work::Null => 0,
    }
}

fn call_name(call: Call) -> &'static str {
    match call {
        Call::Add(_) => "live_add",
        Call::TakeBack => "live_take_back",
    }
}

/// The number, against the one that it should be.
fn same_number(got: u64, number: u64) -> Result<(), String> {
    if got == number {
        return Ok(());
    }
    Err(format!("the answer is {}, it should be {}", ffi::name(got), ffi::name(number)))
}

/// What one list of calls has: the lent struct, what it should hold, and the
/// bare list of bytes, where the line began by a call.
struct Stage {
    held: Held,
    line: Line,
    list: Option<Vec<u8>>,
    lending: Lending,
    seed: u8,
}

impl Stage {
    /// The first call, or the struct as it was filled.
    fn begin(script: &Script, lending: Lending) -> Result<(Self, Option<u64>), String> {
        let seed = script.seed;
        let mut held = Held::new(lending, seed);
        match &script.begin {
            Begin::Filled(line) => {
                unsafe { held.pointer().write((**line).clone()) };
                Ok((Stage { held, line: (**line).clone(), list: None, lending, seed }, None))
            }
            Begin::New { table, start } => {
                let mut line = Line::filled(seed);
                let lent = table.clone();
                let number = trace_live_new(&mut line, table, *start);
                let got = unsafe {
                    ffi::trace_live_new(held.pointer(), lent.as_ptr(), lent.len(), *start)
                };
                same_number(got, number)?;
                if lent != *table {
                    return Err("the table was changed".into());
                }
                let mut stage = Stage { held, line, list: Some(vec![]), lending, seed };
                stage.holds(false)?;
                stage.pad();
                Ok((stage, Some(got)))
            }
        }
    }

    /// The struct holds what it should, in all its bytes if none may change; no
    /// byte beside it is another; and its bytes are those of the bare list.
    fn holds(&self, refused: bool) -> Result<(), String> {
        let got = self.held.line();
        if let Some(field) = got.differs(&self.line) {
            return Err(format!("the struct's {field} is another"));
        }
        if refused && got != self.line {
            return Err("a refusal changed the struct's padding".into());
        }
        if !self.held.guards_hold(self.seed) {
            return Err("a byte beside the struct was changed".into());
        }
        match &self.list {
            Some(list) if got.bytes[..got.count] != list[..] => {
                Err("the bytes are not those of the bare list".into())
            }
            _ => Ok(()),
        }
    }

    /// The padding is free after a call that is not refused: it is written anew.
    fn pad(&mut self) {
        self.held.pad(self.seed);
        (self.line.gap, self.line.end) = ([self.seed; 4], self.seed);
    }

    fn call(&mut self, call: Call, work: Work, facts: Facts) -> Result<u64, String> {
        let bytes = work_len(&self.line, call, work);
        let mut area = Lent::new(bytes, self.seed ^ 0x5a, self.lending);
        let to = if let Work::Null = work { ptr::null_mut() } else { area.pointer() };
        let line = self.held.pointer();
        let got = unsafe {
            match call {
                Call::Add(byte) => ffi::trace_live_add(line, byte, to, area.len()),
                Call::TakeBack => ffi::trace_live_take_back(line, to, area.len()),
            }
        };
        let number = trace_live_call(&mut self.line, call, bytes, facts);
        same_number(got, number)?;
        let refused = number >> 32 != 0;
        if refused && !area.untouched() {
            return Err("a refusal changed the work area".into());
        }
        if !area.guards_hold() {
            return Err("a byte beside the work area was changed".into());
        }
        match &mut self.list {
            Some(list) if !refused => call.on_list(list),
            _ => {}
        }
        self.holds(refused)?;
        if !refused {
            self.pad();
        }
        Ok(got)
    }
}

impl Script {
    /// All calls, one after the other; gives the answers, or what is wrong.
    pub fn play(&self, lending: Lending, facts: Facts) -> Result<Vec<(&'static str, u64)>, String> {
        let (mut stage, first) =
            Stage::begin(self, lending).map_err(|why| format!("new: {why}"))?;
        let mut answers: Vec<_> = first.iter().map(|&number| ("live_new", number)).collect();
        for (i, &(call, work)) in self.calls.iter().enumerate() {
            let got = stage.call(call, work, facts);
            let got = got.map_err(|why| format!("call {i}, {}: {why}", call_name(call)))?;
            answers.push((call_name(call), got));
        }
        Ok(answers)
    }

    /// The list made smaller as long as it fails, as text.
    pub fn smallest(&self, lending: Lending, facts: Facts) -> String {
        let limit = Instant::now() + Duration::from_secs(10);
        let mut best = self.clone();
        let mut why = String::new();
        loop {
            let found = best.candidates().into_iter().find_map(|script| {
                let failed = Instant::now() < limit;
                let said = failed.then(|| script.play(lending, facts).err()).flatten()?;
                Some((script, said))
            });
            match found {
                Some((script, said)) => (best, why) = (script, said),
                None => return format!("smallest list found: {why}\n{}", best.show()),
            }
        }
    }

    /// The list without some of its calls, and by a smaller table.
    fn candidates(&self) -> Vec<Script> {
        let mut all = Vec::new();
        let mut piece = self.calls.len();
        while piece > 0 {
            for at in (0..=self.calls.len() - piece).step_by(piece) {
                let mut calls = self.calls.clone();
                calls.drain(at..at + piece);
                all.push(Script { calls, ..self.clone() });
            }
            piece /= 2;
        }
        if let Begin::New { table, start } = &self.begin {
            if let Ok(checked) = check(table) {
                let smaller = smaller_tables(&checked, *start).into_iter();
                let smaller = smaller.filter(|(bytes, _)| bytes.len() < table.len());
                all.extend(smaller.map(|(table, start)| Script {
                    begin: Begin::New { table, start },
                    ..self.clone()
                }));
            }
        }
        all
    }

    fn show(&self) -> String {
        let mut text = match &self.begin {
            Begin::New { table, start } => format!("table   {}\nstart   {start}\n", hex(table)),
            Begin::Filled(line) => format!(
                "filled  table_len {}, start {}, count {}\ntable   {}\nbytes   {}\n",
                line.table_len,
                line.start,
                line.count,
                hex(&line.table[..line.table_len.min(MOST_TABLE)]),
                hex(&line.bytes[..line.count.min(MOST_BYTES)])
            ),
        };
        for (call, work) in &self.calls {
            text += &format!("call    {call:02x?}, work area {work:?}\n");
        }
        text
    }
}
