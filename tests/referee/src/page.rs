//! A page of lines, requests 8 and 10 of document 02, from their words: the page is
//! parted, each line is read and its tokens are listed, neighbours are held
//! against each other, and the classes of the runs are read as a line.

use crate::calls::{listed, open, work_need, Reader};
use crate::pairs::names;
use crate::random::{changed_line, Rng};
use crate::table::{pack, Refusal, Table};

pub const MOST_LINES: usize = 255;

/// A table and a start number, as they are lent.
#[derive(Clone)]
pub struct Rules {
    pub table: Vec<u8>,
    pub start: u64,
}

impl Rules {
    /// Refusals 1 to 6, then 9.
    pub fn open(&self) -> Result<(Table, usize), Refusal> {
        open(&self.table, self.start)
    }
}

/// The lengths of the work area and of the buffers for the lines.
#[derive(Clone, Copy, PartialEq, Eq, Debug)]
pub struct Rooms {
    pub work: usize,
    pub reading: usize,
    pub first: usize,
    pub second: usize,
}

impl Rooms {
    pub const ALL: Rooms =
        Rooms { work: usize::MAX, reading: usize::MAX, first: usize::MAX, second: usize::MAX };
    pub const NONE: Rooms = Rooms { work: 0, reading: 0, first: 0, second: 0 };

    /// The buffer for the tokens of line i.
    fn own(&mut self, i: usize) -> &mut usize {
        if i.is_multiple_of(2) {
            &mut self.first
        } else {
            &mut self.second
        }
    }
}

/// The one that an answer names.
#[derive(Clone, Copy, PartialEq, Eq, Debug)]
pub enum Who {
    Page,
    LineRules,
    PageRules,
    Line,
}

impl Who {
    /// The number that names this one.
    pub const fn names(self, number: u64) -> u64 {
        ((self as u64) << 56) + number
    }
}

/// The lines of a page. Behind a last byte 10 there is none, nor in an empty
/// page.
pub fn lines(page: &[u8]) -> Vec<&[u8]> {
    let mut lines: Vec<&[u8]> = page.split(|&c| c == 10).collect();
    if lines.last().is_some_and(|line| line.is_empty()) {
        lines.pop();
    }
    lines
}

/// A line that was read: its bytes, those of its reading, and its tokens.
pub struct Line {
    text: Vec<u8>,
    reading_len: usize,
    pub tokens: Vec<u8>,
}

/// The name and the text of each token.
fn named_texts(line: &Line) -> Vec<(u8, &[u8])> {
    let text = |token: &[u8]| &line.text[token[1].into()..][..token[2].into()];
    line.tokens.chunks_exact(3).map(|token| (token[0], text(token))).collect()
}

/// Whether two neighbouring lines are alike, wherever their tokens stand.
fn alike(one: &Line, two: &Line) -> bool {
    named_texts(one) == named_texts(two)
}

fn class(line: &Line) -> u8 {
    names(&line.tokens).first().copied().unwrap_or(0)
}

/// The class of the first line of each run.
pub fn classes(list: &[Line]) -> Vec<u8> {
    list.chunk_by(alike).map(|run| class(&run[0])).collect()
}

/// One line by Read's refusals and Tokens' 11.
fn cut(
    reader: &mut Reader,
    (table, k): (&Table, usize),
    line: &[u8],
    rooms: Rooms,
    own: usize,
) -> Result<Line, Refusal> {
    let reading = reader.admitted(table, k, line, rooms.work, rooms.reading)?;
    let tokens = listed(table, k, &reading);
    if tokens.len() > own {
        return Err(Refusal { number: 11, detail: tokens.len() as u32 });
    }
    Ok(Line { text: line.to_vec(), reading_len: reading.len(), tokens })
}

/// All lines in order, or the refusal of the first that is refused, with its
/// number as the detail.
fn cut_all(
    reader: &mut Reader,
    rules: (&Table, usize),
    lines: &[&[u8]],
    mut rooms: Rooms,
) -> Result<Vec<Line>, Refusal> {
    let mut list = Vec::new();
    for (i, line) in lines.iter().enumerate() {
        let own = *rooms.own(i);
        let line = cut(reader, rules, line, rooms, own);
        list.push(line.map_err(|refusal| Refusal { detail: i as u32, ..refusal })?);
    }
    Ok(list)
}

/// What is lent to one call: the rules of the lines, those of the class bytes of
/// their runs, the page, and rooms.
#[derive(Clone)]
pub struct Page {
    pub by_lines: Rules,
    pub by_runs: Rules,
    pub text: Vec<u8>,
    pub rooms: Rooms,
}

impl Page {
    pub fn answer(&self, reader: &mut Reader, out: &mut [u8]) -> u64 {
        match self.read(reader, out) {
            Ok(records) => records,
            Err((who, refusal)) => who.names(pack(Err(refusal))),
        }
    }

    fn read(&self, reader: &mut Reader, out: &mut [u8]) -> Result<u64, (Who, Refusal)> {
        let naming = |who: Who| move |refusal| (who, refusal);
        let (line_table, l) = self.by_lines.open().map_err(naming(Who::LineRules))?;
        let (page_table, p) = self.by_runs.open().map_err(naming(Who::PageRules))?;
        let lines = lines(&self.text);
        if lines.len() > MOST_LINES {
            return Err((Who::Page, Refusal { number: 20, detail: 0 }));
        }
        let list = cut_all(reader, (&line_table, l), &lines, self.rooms);
        let bytes = classes(&list.map_err(naming(Who::Line))?);
        reader.written(&page_table, p, &bytes, self.rooms.work, out).map_err(naming(Who::Page))
    }
}

/// The class bytes of a page that has no line without a reading, and the least
/// rooms for its lines.
pub fn least_rooms(
    reader: &mut Reader,
    rules: (&Table, usize),
    page: &[u8],
) -> Option<(Vec<u8>, Rooms)> {
    let lines = lines(page);
    let list = cut_all(reader, rules, &lines, Rooms::ALL).ok()?;
    let mut rooms = Rooms::NONE;
    for (i, (line, text)) in list.iter().zip(lines).enumerate() {
        rooms.work = rooms.work.max(work_need(rules.0.records.len(), text.len()));
        rooms.reading = rooms.reading.max(line.reading_len);
        let own = rooms.own(i);
        *own = (*own).max(line.tokens.len());
    }
    Some((classes(&list), rooms))
}

/// A line near this one with the same names, if it has any and a few tries find
/// one: by a blank more, or by another small change.
pub fn near_line(
    reader: &mut Reader,
    rules: (&Table, usize),
    rng: &mut Rng,
    line: &[u8],
) -> Option<Vec<u8>> {
    let mut list = |line: &[u8]| {
        let cut = cut(reader, rules, line, Rooms::ALL, usize::MAX).ok()?;
        Some(names(&cut.tokens))
    };
    let own = list(line).filter(|own| !own.is_empty())?;
    let blank = |rng: &mut Rng| {
        let (before, behind) = line.split_at(rng.below(line.len() + 1));
        [before, b" ", behind].concat()
    };
    let blanks = rng.once_in(2);
    let mut near = (0..12).map(|_| if blanks { blank(rng) } else { changed_line(rng, line) });
    near.find(|near| near != line && list(near).as_ref() == Some(&own))
}

#[cfg(test)]
mod tests {
    use super::*;
    use crate::bench::T1;
    use crate::random::{more_tags, page, table, with_blanks, Grower, Room};

    const EACH: &[u8] = &[2, 0, 255, 0, 5, 0, 0, 0];

    #[test]
    fn parted() {
        let none: [&[u8]; 0] = [];
        assert_eq!(lines(b""), none);
        assert_eq!(lines(b"\n"), [b""]);
        assert_eq!(lines(b"a"), [b"a"]);
        assert_eq!(lines(b"a\n"), [b"a"]);
        assert_eq!(lines(b"a\n\n"), [&b"a"[..], b""]);
        assert_eq!(lines(b"\n\nb"), [&b""[..], b"", b"b"]);
        assert_eq!(lines(b"a\rb\n"), [b"a\rb"]);
    }

    /// Byte by byte: a line ends where a byte 10 stands, or the page.
    fn by_bytes(page: &[u8]) -> Vec<Vec<u8>> {
        let (mut all, mut line) = (vec![], vec![]);
        for (i, &c) in page.iter().enumerate() {
            if c != 10 {
                line.push(c);
            }
            if c == 10 || i + 1 == page.len() {
                all.push(std::mem::take(&mut line));
            }
        }
        all
    }

    /// The bytes of a line that are in a token, each with that one's name and
    /// whether it is its first byte.
    fn told(line: &[u8], tokens: &[u8]) -> Vec<(u8, bool, u8)> {
        let mut list = vec![];
        for (place, &byte) in line.iter().enumerate() {
            for token in tokens.chunks(3) {
                let (from, length) = (usize::from(token[1]), usize::from(token[2]));
                if (from..from + length).contains(&place) {
                    list.push((token[0], place == from, byte));
                }
            }
        }
        list
    }

    /// The class bytes of lines that were read, by what is told of them: a line
    /// counts unless it is what is told of the one before.
    fn by_bytes_told(lists: &[Vec<(u8, bool, u8)>]) -> Vec<u8> {
        let counts = |i: &usize| *i == 0 || lists[*i] != lists[*i - 1];
        (0..lists.len()).filter(counts).map(|i| lists[i].first().map_or(0, |told| told.0)).collect()
    }

    /// Random pages by both roads; enough of them have runs of several lines,
    /// neighbours with the same class that are not alike, lines without a token,
    /// neighbours with the same names and other texts, and neighbours that are
    /// alike with tokens at other offsets.
    #[test]
    fn by_both_roads() {
        let mut rng = Rng::new(11);
        let mut reader = Reader::default();
        let (mut folded, mut unlike, mut bare, mut other_texts, mut moved) = (0, 0, 0, 0, 0);
        for _ in 0..3000 {
            let below = 1 + rng.below(10);
            let mut t = table(&mut rng, below);
            more_tags(&mut rng, &mut t);
            let t = with_blanks(&t, below - 1);
            let records = below + 3;
            let line = |rng: &mut Rng| {
                let mut room = Room { bytes: rng.below(9) as isize, eager: false };
                let value = Grower::new(&t).value(rng, records - 1, &mut room);
                value.expect("a Star spells some line").line()
            };
            let mut pool = vec![line(&mut rng), line(&mut rng)];
            for line in pool.clone() {
                pool.extend(near_line(&mut reader, (&t, records - 1), &mut rng, &line));
            }
            let count = rng.below(7);
            let page = page(&mut rng, &pool, count);
            assert_eq!(lines(&page), by_bytes(&page));
            let Some((found, rooms)) = least_rooms(&mut reader, (&t, records - 1), &page) else {
                continue;
            };
            let (mut lists, mut listed) = (Vec::new(), Vec::new());
            for line in by_bytes(&page) {
                let mut out = vec![0; 3 * line.len()];
                let reading = reader.reading(&t, records - 1, &line).expect("a reading");
                let bytes = t.bytes();
                let count =
                    crate::calls::trace_tokens(&bytes, records as u64 - 1, &reading, &mut out);
                out.truncate(3 * count as usize);
                lists.push(told(&line, &out));
                listed.push(out);
            }
            assert_eq!(found, by_bytes_told(&lists));
            let neighbours = || (1..lists.len()).map(|i| (i - 1, i));
            let same_names = |a: usize, b: usize| names(&listed[a]) == names(&listed[b]);
            let same = |a: usize, b: usize| lists[a] == lists[b];
            other_texts += u32::from(neighbours().any(|(a, b)| same_names(a, b) && !same(a, b)));
            moved += u32::from(neighbours().any(|(a, b)| same(a, b) && listed[a] != listed[b]));
            folded += u32::from(found.len() < lists.len());
            unlike += u32::from(found.windows(2).any(|two| two[0] == two[1]));
            bare += u32::from(found.contains(&0));
            // The class bytes one by one; and the page is refused by less.
            let by_lines = Rules { table: t.bytes(), start: records as u64 - 1 };
            let each = Rules { table: EACH.to_vec(), start: 1 };
            let mut out = vec![0; 4 + 4 * found.len()];
            let work = rooms.work.max(work_need(2, found.len()));
            let rooms = Rooms { work, ..rooms };
            let mut put = |rooms| {
                let (by_lines, by_runs) = (by_lines.clone(), each.clone());
                Page { by_lines, by_runs, text: page.clone(), rooms }.answer(&mut reader, &mut out)
            };
            for (need, rooms) in [
                (rooms.work, Rooms { work: rooms.work.saturating_sub(1), ..rooms }),
                (rooms.reading, Rooms { reading: rooms.reading.saturating_sub(1), ..rooms }),
                (rooms.first, Rooms { first: rooms.first.saturating_sub(1), ..rooms }),
                (rooms.second, Rooms { second: rooms.second.saturating_sub(1), ..rooms }),
            ] {
                assert_eq!(put(rooms) >> 32 != 0, need > 0);
            }
            assert_eq!(put(rooms), 1 + found.len() as u64);
            assert!(out[4..].chunks(4).map(|r| r[1]).eq(found.iter().copied()));
        }
        assert!(folded > 500 && unlike > 100 && bare > 200, "{folded} {unlike} {bare}");
        assert!(other_texts > 200 && moved > 100, "{other_texts} {moved}");
    }

    #[test]
    fn order_of_refusals() {
        let mut reader = Reader::default();
        let good =
            |table: &[u8]| Rules { table: table.to_vec(), start: table.len() as u64 / 4 - 1 };
        let (lines, runs) = (good(T1), good(EACH));
        let wrong = Rules { table: vec![7, 0, 0, 0], start: 0 };
        let outside = |rules: &Rules| Rules { start: rules.start + 1, ..rules.clone() };
        let mut put = |lines: &Rules, runs: &Rules, page: &[u8], rooms, out: usize| {
            let mut out = vec![0; out];
            let (by_lines, by_runs) = (lines.clone(), runs.clone());
            let page = Page { by_lines, by_runs, text: page.to_vec(), rooms };
            let number = page.answer(&mut reader, &mut out);
            (number >> 56, number >> 32 & 0xff_ffff, number & 0xffff_ffff)
        };
        let many = b"x\n".repeat(256);
        assert_eq!(put(&wrong, &wrong, &many, Rooms::NONE, 0), (1, 2, 0));
        assert_eq!(put(&outside(&lines), &wrong, &many, Rooms::NONE, 0), (1, 9, 0));
        assert_eq!(put(&lines, &wrong, &many, Rooms::NONE, 0), (2, 2, 0));
        assert_eq!(put(&lines, &outside(&runs), &many, Rooms::NONE, 0), (2, 9, 0));
        assert_eq!(put(&lines, &runs, &many, Rooms::NONE, 0), (0, 20, 0));
        assert_eq!(put(&lines, &runs, &many[..510], Rooms::NONE, 0), (3, 10, 0));
        assert_eq!(put(&lines, &runs, &many[..510], Rooms::ALL, 0), (3, 8, 0));
        let page = b"abc\nabc\nb";
        assert_eq!(put(&lines, &runs, page, Rooms::ALL, 0), (3, 8, 2));
        assert_eq!(put(&lines, &runs, page, Rooms { second: 5, ..Rooms::ALL }, 0), (3, 11, 1));
        assert_eq!(put(&lines, &runs, page, Rooms { first: 5, ..Rooms::ALL }, 0), (3, 11, 0));
        assert_eq!(put(&lines, &runs, page, Rooms { reading: 31, ..Rooms::ALL }, 0), (3, 11, 0));
        assert_eq!(put(&lines, &runs, page, Rooms { work: 99, ..Rooms::ALL }, 0), (3, 10, 0));
        assert_eq!(put(&lines, &runs, &page[..7], Rooms::ALL, 7), (0, 11, 8));
        assert_eq!(put(&lines, &runs, &page[..7], Rooms::ALL, 8), (0, 0, 2));
        assert_eq!(put(&lines, &runs, b"", Rooms::NONE, 8), (0, 10, 0));
        assert_eq!(put(&lines, &good(&[2, 1, 1, 0]), b"", Rooms::ALL, 8), (0, 8, 0));
    }
}
