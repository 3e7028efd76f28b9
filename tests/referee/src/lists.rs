//! Token lists with pairs of names: all small ones, and random ones.

use crate::harness::{order, Harness};
use crate::sampled::Size;
use referee::bench::refusal;
use referee::pairs::{first_to_break, Pair, MOST};
use referee::random::{pair_lists, token_list, Rng};

/// Names for all small lists: both ends of a byte, and some between.
pub const NAMES: &[u8] = &[0, 255, 7, 128];

const fn pair(first: u8, second: u8) -> Pair {
    Pair { first, second }
}

/// Tokens with these names; offsets and lengths are names too.
fn named(names: &[u8]) -> Vec<u8> {
    let other = |i: usize| NAMES[(i + names.len()) % NAMES.len()];
    (0..names.len()).flat_map(|i| [names[i], other(i), other(2 * i + 1)]).collect()
}

/// All sequences of up to so many of the items, the shorter ones first.
fn sequences<T: Copy>(items: &[T], longest: usize) -> Vec<Vec<T>> {
    let mut all = vec![vec![]];
    let mut from = 0;
    for _ in 0..longest {
        let to = all.len();
        for i in from..to {
            for &item in items {
                let mut longer = all[i].clone();
                longer.push(item);
                all.push(longer);
            }
        }
        from = to;
    }
    all
}

/// All lists of up to so many tokens over the names, with all lists of up to so
/// many pairs of them.
pub fn all(h: &mut Harness, names: &[u8], longest: usize, most: usize) {
    let each = names.iter().flat_map(|&first| names.iter().map(move |&second| pair(first, second)));
    let pair_lists = sequences(&each.collect::<Vec<Pair>>(), most);
    for list in sequences(names, longest) {
        let tokens = named(&list);
        for pairs in &pair_lists {
            h.put(order(&tokens, pairs), 0);
        }
    }
}

/// Every two names, in both orders, and every name twice.
pub fn names(h: &mut Harness) {
    for one in 0..=255 {
        for two in 0..=255 {
            let tokens = [one, two, two, two, one, one];
            h.put(order(&tokens, &[pair(one, two)]), 0);
            h.put(order(&tokens, &[pair(two, one)]), 0);
        }
    }
}

/// Every number of pairs up to past the limit, with each of them the only one
/// that is broken; whole lists, and such as end inside a token.
pub fn counts(h: &mut Harness) {
    let tokens = [1, 3, 3, 2, 3, 3, 3, 3, 3, 3];
    for count in 0..=2 * MOST + 2 {
        h.from(format!("{count} pairs"));
        let number = |kept: u64| if count > MOST { refusal(17) } else { kept };
        let mut pairs = vec![pair(1, 2); count];
        for bytes in 0..=tokens.len() {
            let kept = if bytes % 3 == 0 { bytes as u64 / 3 } else { refusal(18) };
            h.put_stated(order(&tokens[..bytes], &pairs), 0, number(kept), &[]);
        }
        for place in 0..count {
            pairs[place] = pair(4, 3);
            h.put_stated(order(&tokens[..9], &pairs), 0, number(2), &[]);
            h.put_stated(order(&tokens[..8], &pairs), 0, number(refusal(18)), &[]);
            pairs[place] = pair(1, 2);
        }
    }
    h.from("very many pairs");
    for count in [255, 256, 257, 320, 65_536, 65_600, 1_000_000] {
        for bytes in [0, 8, 9] {
            let request = order(&tokens[..bytes], &vec![pair(1, 2); count]);
            h.put_known(request, 0, refusal(17), &[]);
        }
    }
}

/// Lists of many lengths: the last token alone has its name.
pub fn lengths(h: &mut Harness) {
    for count in (2..=800).chain([65_535, 65_536, 65_537, 100_000, 1_000_000]) {
        h.from(format!("{count} tokens"));
        let mut tokens = [1, 5, 6].repeat(count);
        tokens[3 * count - 3] = 2;
        let last = count as u64 - 1;
        h.put_known(order(&tokens, &[pair(1, 2)]), 0, count as u64, &[]);
        h.put_known(order(&tokens, &[pair(3, 2)]), 0, last, &[]);
        h.put_known(order(&tokens, &[pair(2, 2), pair(3, 4)]), 0, last, &[]);
        h.put_known(order(&tokens, &[pair(3, 4)]), 0, count as u64, &[]);
        h.put_known(order(&tokens, &[pair(2, 1)]), 0, 0, &[]);
        for less in [1, 2] {
            let request = order(&tokens[..3 * count - less], &[pair(3, 2)]);
            h.put_known(request, 0, refusal(18), &[]);
        }
    }
}

/// A random list with pairs, in more than one order; the list up to and with
/// the token that breaks one; and what is refused.
pub fn round(h: &mut Harness, rng: &mut Rng, size: Size) {
    let most = match size {
        Size::Small => 12,
        Size::Medium => 300,
        Size::Long => 1000,
    };
    let tokens = token_list(rng, most);
    for mut pairs in pair_lists(rng, &tokens) {
        h.put(order(&tokens, &pairs), 0);
        if let Some(i) = first_to_break(&tokens, &pairs) {
            h.put(order(&tokens[..3 * i], &pairs), 0);
            h.put(order(&tokens[..3 * i + 3], &pairs), 0);
        }
        let cut = rng.below(tokens.len() + 1);
        h.put(order(&tokens[..cut], &pairs), 0);
        if !pairs.is_empty() {
            let place = rng.below(pairs.len());
            pairs.rotate_left(place);
            h.put(order(&tokens, &pairs), 0);
            h.put(order(&tokens, &pairs[..place]), 0);
        }
        let count = MOST - 1 + rng.below(4);
        pairs.resize(count, pair(rng.byte(), rng.byte()));
        h.put(order(&tokens, &pairs), 0);
        h.put(order(&tokens[..cut], &pairs), 0);
    }
}

/// Short lists cut at each byte, with few pairs.
pub fn torn(h: &mut Harness) {
    let tokens = named(&[1, 2, 3, 1, 4]);
    let pairs = [pair(1, 2), pair(2, 3), pair(5, 4)];
    for bytes in 0..=tokens.len() {
        h.from(format!("the first {bytes} bytes of a list"));
        for count in 0..=pairs.len() {
            h.put(order(&tokens[..bytes], &pairs[..count]), 0);
        }
    }
    h.from("64 pairs and 65");
    h.put(order(&tokens, &[pairs[0]; MOST]), 0);
    h.put(order(&tokens, &[pairs[0]; MOST + 1]), 0);
}
