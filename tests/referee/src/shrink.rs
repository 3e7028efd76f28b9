//! Makes a failing case smaller as long as it keeps failing, and prints it.

use crate::ffi::Case;
use crate::harness;
use referee::bench::Request;
use referee::calls::work_need;
use referee::page::{Page, Rules};
use referee::pairs::Pair;
use referee::random::{all_lines, all_tables};
use referee::rivals::rivals;
use referee::table::{check, Kind, Letter, Record, Table};
use referee::value::{fit, Value};
use referee::wrong::Places;
use std::rc::Rc;
use std::time::{Duration, Instant};

/// The smallest failing case found, within a time limit: the first of the
/// small cases of the same call, or else the case itself made smaller.
pub fn shrink(case: &Case, fails: &mut dyn FnMut(&Case) -> bool) -> Case {
    if let Some(small) = search(case, fails) {
        return small;
    }
    let limit = Instant::now() + Duration::from_secs(20);
    let mut best = case.clone();
    loop {
        let smaller = candidates(&best).into_iter().find(|candidate| {
            Instant::now() < limit && weight(candidate) < weight(&best) && fails(candidate)
        });
        match smaller {
            Some(smaller) => best = smaller,
            None => return best,
        }
    }
}

/// Goes through small tables, lines and rivals for a case of the same call
/// that fails and is smaller than the given one.
fn search(case: &Case, fails: &mut dyn FnMut(&Case) -> bool) -> Option<Case> {
    if let Request::Compile { .. } | Request::Order { .. } | Request::Page(_) = case.request {
        return None;
    }
    let limit = Instant::now() + Duration::from_secs(10);
    let mut found: Option<Case> = None;
    for records in 1..=4 {
        all_tables(records, &mut |table| {
            if found.is_some() || Instant::now() > limit {
                return;
            }
            let mut table = table.clone();
            if let Request::Tokens { .. } = case.request {
                table.records.iter_mut().for_each(|record| record.tag = 1);
                table.records[records - 1].tag = u8::from(records == 1);
            }
            for line in all_lines(3) {
                let small = small_requests(case, &table, &line).into_iter().map(|request| Case {
                    request,
                    out_len: 16,
                    ..case.clone()
                });
                let mut small = small.filter(|c| weight(c) < weight(case));
                found = small.find(|c| fails(c));
                if found.is_some() {
                    return;
                }
            }
        });
    }
    found
}

/// The requests of the same call that a small table and line give.
fn small_requests(case: &Case, table: &Table, line: &[u8]) -> Vec<Request> {
    let k = table.records.len() - 1;
    let (bytes, start) = (table.bytes(), k as u64);
    let all = small_readings(table, k, line);
    match &case.request {
        Request::Check { .. }
        | Request::Compile { .. }
        | Request::Order { .. }
        | Request::Page(_) => vec![],
        Request::Apart { .. } => vec![harness::apart(&bytes, start)],
        Request::Read { .. } => {
            vec![harness::read(&bytes, start, line, work_need(k + 1, line.len()))]
        }
        Request::Spell { .. } => all.iter().map(|v| harness::spell(&bytes, start, v)).collect(),
        Request::Tokens { .. } => all.iter().map(|v| harness::tokens(&bytes, start, v)).collect(),
        Request::Compare { .. } => {
            let mut pairs = Vec::new();
            for one in &all {
                pairs.extend(all.iter().map(|two| harness::compare(&bytes, start, one, two)));
            }
            pairs
        }
    }
}

/// Every rival's reading, each with one wrong length or record number behind it.
fn small_readings(table: &Table, k: usize, line: &[u8]) -> Vec<Vec<u8>> {
    let mut all = Vec::new();
    for value in rivals(table, k, line) {
        let places = Places::new(table, k, &value);
        all.push(places.reading.clone());
        for i in 0..places.records() {
            all.extend(places.bytes(i).into_iter().map(|change| change.made(&places.reading)));
        }
    }
    all
}

fn weight(case: &Case) -> (usize, usize, usize, usize) {
    let (table, bytes, work) = match &case.request {
        Request::Check { table } | Request::Apart { table, .. } => (table, 0, 0),
        Request::Read { table, line, work_len, .. } => (table, line.len(), *work_len),
        Request::Spell { table, reading, .. } | Request::Tokens { table, reading, .. } => {
            (table, reading.len(), 0)
        }
        Request::Compare { table, first, second, .. } => (table, first.len() + second.len(), 0),
        Request::Compile { text } => (&vec![], text.len(), 0),
        Request::Order { tokens, pairs } => (&vec![], tokens.len() + 2 * pairs.len(), 0),
        Request::Page(page) => {
            (&page.by_lines.table, page.by_runs.table.len() + page.text.len(), page.rooms.work)
        }
    };
    let plain = table.chunks(4).map(|r| usize::from(r[0] > 2) + usize::from(r.last() != Some(&0)));
    (table.len() + bytes, plain.sum(), work, case.out_len)
}

fn parts(case: &Case) -> (Vec<u8>, u64, Vec<Vec<u8>>) {
    match &case.request {
        Request::Check { table } => (table.clone(), 0, vec![]),
        Request::Apart { table, record } => (table.clone(), *record, vec![]),
        Request::Read { table, start, line, .. } => (table.clone(), *start, vec![line.clone()]),
        Request::Spell { table, start, reading } | Request::Tokens { table, start, reading } => {
            (table.clone(), *start, vec![reading.clone()])
        }
        Request::Compare { table, start, first, second } => {
            (table.clone(), *start, vec![first.clone(), second.clone()])
        }
        Request::Compile { text } => (vec![], 0, vec![text.clone()]),
        Request::Order { tokens, pairs } => {
            let bytes = pairs.iter().flat_map(|pair| [pair.first, pair.second]).collect();
            (vec![], 0, vec![tokens.clone(), bytes])
        }
        Request::Page(Page { by_lines, by_runs, text, .. }) => {
            let lists = vec![text.clone(), by_runs.table.clone()];
            (by_lines.table.clone(), by_lines.start, lists)
        }
    }
}

/// The same call with another table, start and byte sequences. A work area of
/// just the need, or one byte below, stays so.
fn with(case: &Case, table: Vec<u8>, start: u64, mut lists: Vec<Vec<u8>>) -> Case {
    let request = match &case.request {
        Request::Check { .. } => Request::Check { table },
        Request::Apart { .. } => Request::Apart { table, record: start },
        Request::Read { table: old, line: old_line, work_len, .. } => {
            let line = lists.remove(0);
            let need = work_need(table.len() / 4, line.len());
            let old_need = work_need(old.len() / 4, old_line.len());
            let work_len = match *work_len {
                len if len >= old_need => need + (len - old_need).min(1),
                len if len + 1 == old_need => need.saturating_sub(1),
                len => len,
            };
            Request::Read { table, start, line, work_len }
        }
        Request::Spell { .. } => Request::Spell { table, start, reading: lists.remove(0) },
        Request::Tokens { .. } => Request::Tokens { table, start, reading: lists.remove(0) },
        Request::Compare { .. } => {
            let second = lists.remove(1);
            Request::Compare { table, start, first: lists.remove(0), second }
        }
        Request::Compile { .. } => Request::Compile { text: lists.remove(0) },
        Request::Order { .. } => {
            let bytes = lists.remove(1);
            let pairs = bytes.chunks_exact(2).map(|two| Pair { first: two[0], second: two[1] });
            Request::Order { tokens: lists.remove(0), pairs: pairs.collect() }
        }
        Request::Page(page) => {
            let by_runs = Rules { table: lists.remove(1), ..page.by_runs };
            let (by_lines, text) = (Rules { table, start }, lists.remove(0));
            Request::Page(Page { by_lines, by_runs, text, rooms: page.rooms })
        }
    };
    Case { request, ..case.clone() }
}

fn candidates(case: &Case) -> Vec<Case> {
    let (table, start, lists) = parts(case);
    let mut all = Vec::new();
    if let Ok(checked) = check(&table) {
        in_step(&checked, case, start, &lists, &mut all);
        for (bytes, start) in smaller_tables(&checked, start) {
            all.push(with(case, bytes, start, lists.clone()));
        }
    } else {
        for k in 0..table.len() / 4 {
            let mut bytes = table.clone();
            bytes.drain(4 * k..4 * k + 4);
            all.push(with(case, bytes, start, lists.clone()));
        }
    }
    if let Request::Page(page) = &case.request {
        let checked = check(&page.by_runs.table);
        for (table, start) in checked.map_or(vec![], |t| smaller_tables(&t, page.by_runs.start)) {
            let page = Page { by_runs: Rules { table, start }, ..page.clone() };
            all.push(Case { request: Request::Page(page), ..case.clone() });
        }
    }
    // Bytes taken out, in large pieces first.
    for which in 0..lists.len() {
        let len = lists[which].len();
        let mut piece = len;
        while piece > 0 {
            for at in (0..=len - piece).step_by(piece.div_ceil(2)) {
                let mut shorter = lists.clone();
                shorter[which].drain(at..at + piece);
                all.push(with(case, table.clone(), start, shorter));
            }
            piece /= 2;
        }
    }
    // The same changes with a buffer that is surely long enough, in case the
    // failure hangs on that only.
    let longer = all.clone().into_iter().map(|c| Case { out_len: case.out_len + 8, ..c });
    let longer: Vec<Case> = longer.collect();
    all.extend(longer);
    all
}

/// The table without one record nobody names, with a record made plain, with
/// a record replaced by its child, or with a tag gone.
pub fn smaller_tables(table: &Table, start: u64) -> Vec<(Vec<u8>, u64)> {
    let mut all = Vec::new();
    let named: Vec<usize> = table.records.iter().flat_map(|r| r.kind.children()).collect();
    for k in (0..table.records.len()).rev() {
        if !named.contains(&k) && table.records.len() > 1 && start != k as u64 {
            all.push(without(table, k, start));
        }
        for child in table.kind(k).children() {
            // The parent takes the child's place.
            let mut other = table.clone();
            let grandchild = other.records[child];
            other.records[k].kind = grandchild.kind;
            other.records[child] = Record { kind: Kind::Empty, tag: 0 };
            if check(&other.bytes()).is_ok() {
                let free = !other.records.iter().any(|r| r.kind.children().contains(&child));
                if free && start != child as u64 {
                    all.push(without(&other, child, start));
                }
            }
        }
    }
    for k in 0..table.records.len() {
        let mut other = table.clone();
        other.records[k].tag = 0;
        all.push((other.bytes(), start));
        other.records[k].kind = match table.kind(k) {
            Kind::Letter(letter) if letter.outside => Kind::Letter(Letter::range(0, 255)),
            Kind::Or(..) | Kind::Seq(..) | Kind::Star(_) => Kind::Empty,
            _ => continue,
        };
        all.push((other.bytes(), start));
    }
    all
}

fn without(table: &Table, gone: usize, start: u64) -> (Vec<u8>, u64) {
    let down = |k: usize| if k > gone { k - 1 } else { k };
    let mut records = Vec::new();
    for (k, record) in table.records.iter().enumerate() {
        if k == gone {
            continue;
        }
        let kind = match record.kind {
            Kind::Or(a, b) => Kind::Or(down(a), down(b)),
            Kind::Seq(a, b) => Kind::Seq(down(a), down(b)),
            Kind::Star(a) => Kind::Star(down(a)),
            other => other,
        };
        records.push(Record { kind, tag: record.tag });
    }
    let below = start > gone as u64 && start <= table.records.len() as u64;
    (Table { records }.bytes(), if below { start - 1 } else { start })
}

/// Steps that keep fitting readings fitting: into a child of the start record
/// with all readings at once, and one iteration less.
fn in_step(table: &Table, case: &Case, start: u64, lists: &[Vec<u8>], all: &mut Vec<Case>) {
    let with_readings = matches!(
        case.request,
        Request::Spell { .. } | Request::Tokens { .. } | Request::Compare { .. }
    );
    if !with_readings {
        return;
    }
    let Some(k) = usize::try_from(start).ok().filter(|&k| k < table.records.len()) else {
        return;
    };
    let values: Option<Vec<Value>> = lists.iter().map(|v| fit(table, k, v)).collect();
    let Some(values) = values else { return };
    for (number, child) in table.kind(k).children().into_iter().enumerate() {
        for iteration in 0..3 {
            let inner = |v: &Value| match v {
                Value::Left(v) if number == 0 => Some(v.clone()),
                Value::Right(v) if number == 1 => Some(v.clone()),
                Value::Seq(v1, v2) => Some(if number == 0 { v1.clone() } else { v2.clone() }),
                Value::Stars(vs) => vs.get(iteration).cloned(),
                _ => None,
            };
            let inside: Option<Vec<Rc<Value>>> = values.iter().map(inner).collect();
            if let Some(inside) = inside {
                let lists = inside.iter().map(|v| v.reading(table, child)).collect();
                all.push(with(case, table.bytes(), child as u64, lists));
            }
        }
    }
    for which in 0..values.len() {
        for shorter in one_iteration_less(&values[which]) {
            let mut changed = lists.to_vec();
            changed[which] = shorter.reading(table, k);
            all.push(with(case, table.bytes(), start, changed));
        }
    }
    if values.len() == 2 {
        for one in one_iteration_less(&values[0]) {
            for two in one_iteration_less(&values[1]).iter().take(20) {
                let lists = vec![one.reading(table, k), two.reading(table, k)];
                all.push(with(case, table.bytes(), start, lists));
            }
        }
    }
}

/// The values with one iteration taken out of one Stars, a few dozen at most.
fn one_iteration_less(value: &Value) -> Vec<Value> {
    let mut all = match value {
        Value::Void | Value::Byte(_) => vec![],
        Value::Left(v) => {
            one_iteration_less(v).into_iter().map(|v| Value::Left(Rc::new(v))).collect()
        }
        Value::Right(v) => {
            one_iteration_less(v).into_iter().map(|v| Value::Right(Rc::new(v))).collect()
        }
        Value::Seq(v1, v2) => {
            let mut all: Vec<Value> = Vec::new();
            for v in one_iteration_less(v1) {
                all.push(Value::Seq(Rc::new(v), v2.clone()));
            }
            for v in one_iteration_less(v2) {
                all.push(Value::Seq(v1.clone(), Rc::new(v)));
            }
            all
        }
        Value::Stars(vs) => {
            let mut all = Vec::new();
            if vs.len() > 3 {
                all.push(Value::Stars(vs[..vs.len() / 2].to_vec()));
                all.push(Value::Stars(vs[vs.len() / 2..].to_vec()));
            }
            for i in 0..vs.len().min(20) {
                let mut fewer = vs.clone();
                fewer.remove(i);
                all.push(Value::Stars(fewer));
            }
            for i in 0..vs.len().min(20) {
                for v in one_iteration_less(&vs[i]) {
                    let mut other = vs.clone();
                    other[i] = Rc::new(v);
                    all.push(Value::Stars(other));
                }
            }
            all
        }
    };
    all.truncate(60);
    all
}

pub fn hex(bytes: &[u8]) -> String {
    let words: Vec<String> = bytes.iter().map(|c| format!("{c:02x}")).collect();
    words.join(" ")
}

/// The case as lines that can be pasted into a test.
pub fn show(case: &Case) -> String {
    let (table, start, lists) = parts(case);
    let (call, names): (&str, &[&str]) = match &case.request {
        Request::Check { .. } => ("check", &[]),
        Request::Read { .. } => ("read", &["line"]),
        Request::Spell { .. } => ("spell", &["reading"]),
        Request::Tokens { .. } => ("tokens", &["reading"]),
        Request::Compare { .. } => ("compare", &["first", "second"]),
        Request::Compile { .. } => ("compile", &["text"]),
        Request::Order { .. } => ("order", &["tokens", "pairs"]),
        Request::Page(_) => ("page", &["page", "runs"]),
        Request::Apart { .. } => ("apart", &[]),
    };
    let mut text = format!("call    {call}\n");
    if !matches!(call, "compile" | "order") {
        text += &format!("table   {}\n", hex(&table));
    }
    if !matches!(call, "check" | "compile" | "order") {
        let word = if call == "apart" { "record" } else { "start" };
        text += &format!("{word:<7} {start}\n");
    }
    for (name, bytes) in names.iter().zip(&lists) {
        text += &format!("{name:<7} {}\n", hex(bytes));
    }
    if let Request::Read { work_len, .. } = &case.request {
        text += &format!("work    {work_len} bytes\n");
    }
    if let Request::Page(Page { by_runs, rooms, .. }) = &case.request {
        text += &format!("start   {} of the runs' table\nrooms   {rooms:?}\n", by_runs.start);
    }
    if let Request::Compile { text: bytes } | Request::Page(Page { text: bytes, .. }) =
        &case.request
    {
        text += &format!("as text {}\n", bytes.escape_ascii());
    }
    if !matches!(call, "check" | "compare" | "order" | "apart") {
        text += &format!("buffer  {} bytes\n", case.out_len);
    }
    text
}
