//! Compares libtrace.a with the referee.
//!
//! referee gate                 all small cases, and random ones of a fixed seed
//! referee soak SECONDS [SEED]  random rounds until the time is up
//! referee notation             the part of the gate on Compile
//! referee order                the part of the gate on Order
//! referee live                 the part of the gate on live lines
//! referee page                 the part of the gate on pages
//! referee apart                the part of the gate on alternatives
//! referee stack                deepest nestings on a stack of 1 MiB
//! referee memcheck             exactly sized buffers, for valgrind

mod alternatives;
mod exhaustive;
mod ffi;
mod harness;
mod lists;
mod memcheck;
mod pages;
mod sampled;
mod script;
mod shrink;
mod stack;
mod texts;
mod typing;
mod unfit;

use ffi::Lending;
use harness::Harness;
use referee::random::Rng;
use sampled::Size;
use std::time::{Duration, Instant};

const GATE_SEED: u64 = 1;

/// What a round is about, and the round.
type Round = (&'static str, fn(&mut Harness, &mut Rng, Size));

const TABLE: Round = ("table", sampled::round);
const TEXT: Round = ("text", texts::round);
const LIST: Round = ("list", lists::round);
const LIVE: Round = ("live line", typing::round);
const PAGE: Round = ("page", pages::round);
const APART: Round = ("alternatives", alternatives::round);

/// Rounds of each size, so many of them, each from a seed of its own; and the
/// name of that part.
fn rounds(h: &mut Harness, round: Round, parts: [(u64, &str); 3]) {
    for (size, (count, name)) in [Size::Small, Size::Medium, Size::Long].into_iter().zip(parts) {
        for i in 0..count {
            one_round(h, round, size, GATE_SEED, i);
        }
        h.done(name);
    }
}

fn one_round(h: &mut Harness, (name, round): Round, size: Size, seed: u64, i: u64) {
    h.from(format!("{size:?} {name} round {i} of seed {seed}"));
    let mut rng = Rng::new(seed.wrapping_mul(1 << 20).wrapping_add(i * 3 + size as u64));
    round(h, &mut rng, size);
}

fn gate() -> bool {
    let mut h = Harness::new(Lending::Guarded);
    exhaustive::bench(&mut h);
    h.done("bench");
    exhaustive::fields(&mut h);
    h.done("Check on all small fields");
    exhaustive::tables(&mut h, 4);
    h.done("all tables of up to 4 records");
    exhaustive::readings(&mut h, 3);
    h.done("all readings of up to 2 records");
    exhaustive::wrong_bytes(&mut h, 4);
    h.done("wrong lengths and record numbers in the readings of small tables");
    exhaustive::lengths(&mut h);
    h.done("lines of every length");
    let parts = [
        (4000, "random small tables"),
        (250, "random tables of up to 61 records"),
        (16, "random tables of up to 255 records"),
    ];
    rounds(&mut h, TABLE, parts);
    notation(&mut h);
    order(&mut h);
    live(&mut h);
    page(&mut h);
    apart(&mut h);
    h.coverage()
}

fn notation(h: &mut Harness) {
    h.from("every byte");
    texts::bytes(h);
    h.done("texts with every byte");
    h.from("all short texts");
    texts::all(h, texts::BYTES, 6);
    h.done("all texts of up to 6 bytes");
    h.from("all texts of a few words");
    texts::all(h, texts::WORDS, 6);
    texts::all(h, texts::NEARLY, 5);
    h.done("all texts of up to 6 words");
    texts::lengths(h);
    h.done("texts of every length");
    let parts = [
        (10_000, "random short texts"),
        (2000, "random texts of up to 120 records"),
        (300, "random texts of up to 4,099 bytes"),
    ];
    rounds(h, TEXT, parts);
}

fn order(h: &mut Harness) {
    h.from("every two names");
    lists::names(h);
    h.done("every two names of tokens");
    h.from("all short lists");
    lists::all(h, &lists::NAMES[..3], 6, 3);
    lists::all(h, lists::NAMES, 5, 2);
    h.done("all lists of up to 6 tokens and up to 3 pairs");
    lists::counts(h);
    h.done("pairs of every number");
    lists::lengths(h);
    h.done("lists of up to 1,000,000 tokens");
    let parts = [
        (10_000, "random short lists"),
        (1000, "random lists of up to 300 tokens"),
        (60, "random lists of up to 1,000 tokens"),
    ];
    rounds(h, LIST, parts);
}

fn live(h: &mut Harness) {
    typing::made(h, &(0..=255).collect::<Vec<u8>>());
    h.done("live lines, as they are made");
    typing::bytes(h);
    h.done("live lines with every byte");
    typing::lengths(h);
    h.done("live lines of every length");
    typing::filled(h);
    h.done("live lines filled by hand");
    for (records, longest) in [(1, 4), (2, 4), (3, 4), (4, 3)] {
        typing::small(h, records, longest, true);
    }
    typing::small(h, 5, 2, false);
    h.done("live lines by all tables of up to 5 records");
    let parts = [
        (3000, "live lines by random small tables"),
        (200, "live lines by random tables of up to 61 records"),
        (30, "live lines by random tables of up to 255 records"),
    ];
    rounds(h, LIVE, parts);
}

fn page(h: &mut Harness) {
    pages::small(h, 7);
    h.done("all pages of up to 7 bytes");
    pages::neighbours(h, 4);
    h.done("pages of every two lines of up to 4 bytes");
    pages::texts(h);
    h.done("pages of lines with other texts");
    pages::tables(h, 3);
    h.done("pages by all tables of up to 3 records");
    pages::bytes(h);
    h.done("pages with every byte");
    pages::counts(h);
    h.done("pages of every number of lines");
    pages::lengths(h);
    h.done("pages with lines of every length");
    let parts = [
        (4000, "random pages by small tables"),
        (200, "random pages by tables of up to 61 records"),
        (20, "random pages by tables of up to 255 records"),
    ];
    rounds(h, PAGE, parts);
}

fn apart(h: &mut Harness) {
    alternatives::small(h, 5);
    h.done("alternatives in all tables of up to 5 records");
    alternatives::bytes(h);
    h.done("alternatives of every two bytes");
    alternatives::numbers(h);
    h.done("alternatives in tables of every length");
    let parts = [
        (8000, "alternatives in random small tables"),
        (400, "alternatives in random tables of up to 61 records"),
        (30, "alternatives in random tables of up to 255 records"),
    ];
    rounds(h, APART, parts);
}

fn soak(seconds: u64, seed: u64) {
    let end = Instant::now() + Duration::from_secs(seconds);
    let mut h = Harness::new(Lending::Guarded);
    let mut i = 0;
    while Instant::now() < end {
        let size = match i % 200 {
            0 => Size::Long,
            1..=10 => Size::Medium,
            _ => Size::Small,
        };
        one_round(&mut h, TABLE, size, seed, i);
        one_round(&mut h, TEXT, size, seed, i);
        one_round(&mut h, LIST, size, seed, i);
        one_round(&mut h, LIVE, size, seed, i);
        one_round(&mut h, PAGE, size, seed, i);
        one_round(&mut h, APART, size, seed, i);
        i += 1;
    }
    h.done(&format!("soak, {i} rounds of seed {seed}"));
}

fn run(arguments: &[String]) -> bool {
    let words: Vec<&str> = arguments.iter().map(String::as_str).collect();
    let number = |word: &str| word.parse::<u64>().ok();
    match words[..] {
        ["gate"] if !gate() => std::process::exit(1),
        ["gate"] => {}
        ["notation"] => notation(&mut Harness::new(Lending::Guarded)),
        ["order"] => order(&mut Harness::new(Lending::Guarded)),
        ["live"] => live(&mut Harness::new(Lending::Guarded)),
        ["page"] => page(&mut Harness::new(Lending::Guarded)),
        ["apart"] => apart(&mut Harness::new(Lending::Guarded)),
        ["stack"] => stack::run(),
        ["memcheck"] => memcheck::run(),
        ["soak", seconds] => match number(seconds) {
            Some(seconds) => soak(seconds, GATE_SEED + 1),
            None => return false,
        },
        ["soak", seconds, seed] => match (number(seconds), number(seed)) {
            (Some(seconds), Some(seed)) => soak(seconds, seed),
            _ => return false,
        },
        _ => return false,
    }
    true
}

/// The referee walks values by recursion: it gets a stack of its own size.
fn main() {
    let arguments: Vec<String> = std::env::args().skip(1).collect();
    let thread = std::thread::Builder::new().stack_size(256 << 20).spawn(move || run(&arguments));
    match thread.expect("a thread").join() {
        Ok(true) => {}
        Ok(false) => {
            eprintln!(
                "usage: referee gate | soak SECONDS [SEED] | notation | order | live | page | apart | stack | memcheck"
            );
            std::process::exit(2);
        }
        Err(_) => std::process::exit(1),
    }
}
