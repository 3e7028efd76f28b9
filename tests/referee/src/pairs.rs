//! Names that must come first, request 5 of document 02, from its words: each
//! token is held against each pair, and all that is earlier is looked through.

/// The first name and the second, as C lends them.
#[repr(C)]
#[derive(Clone, Copy, PartialEq, Eq, Debug)]
pub struct Pair {
    pub first: u8,
    pub second: u8,
}

/// The most pairs.
pub const MOST: usize = 64;

/// The names of a token list.
pub fn names(tokens: &[u8]) -> Vec<u8> {
    tokens.chunks_exact(3).map(|token| token[0]).collect()
}

/// The number of the first token that breaks some pair, None if none does.
pub fn first_to_break(tokens: &[u8], pairs: &[Pair]) -> Option<usize> {
    let names = names(tokens);
    (0..names.len()).find(|&i| pairs.iter().any(|&pair| breaks(&names, i, pair)))
}

/// The token has the second name, and no earlier one the first.
fn breaks(names: &[u8], i: usize, pair: Pair) -> bool {
    names[i] == pair.second && !names[..i].contains(&pair.first)
}

#[cfg(test)]
mod tests {
    use super::*;
    use crate::calls::trace_order;
    use crate::random::{pair_lists, token_list, Rng};

    /// The same by the place where each name is first: a pair is kept if its
    /// second name has no place, or its first name an earlier one.
    fn by_places(tokens: &[u8], pairs: &[Pair]) -> Option<usize> {
        let names = names(tokens);
        let place = |name: u8| names.iter().position(|&other| other == name);
        let broken = |pair: &Pair| {
            let second = place(pair.second)?;
            let kept = place(pair.first).is_some_and(|first| first < second);
            (!kept).then_some(second)
        };
        pairs.iter().filter_map(broken).min()
    }

    /// Both roads on random lists; enough of them are kept, and enough broken
    /// behind their first token.
    #[test]
    fn by_both_roads() {
        let mut rng = Rng::new(8);
        let (mut kept, mut late) = (0, 0);
        for _ in 0..2000 {
            let most = rng.choose(&[4, 12, 60]);
            let tokens = token_list(&mut rng, most);
            for pairs in pair_lists(&mut rng, &tokens) {
                let found = first_to_break(&tokens, &pairs);
                assert_eq!(found, by_places(&tokens, &pairs), "{tokens:?} {pairs:?}");
                kept += u32::from(found.is_none() && !pairs.is_empty() && tokens.len() > 3);
                late += u32::from(found > Some(0));
            }
        }
        assert!(kept > 1000 && late > 1000, "{kept} kept, {late} broken late");
    }

    #[test]
    fn seventeen_before_eighteen() {
        let pairs = [Pair { first: 1, second: 2 }; 65];
        let answer = |bytes: usize, count: usize| trace_order(&[2; 9][..bytes], &pairs[..count]);
        assert_eq!(answer(9, 64), 0);
        assert_eq!(answer(0, 64), 0);
        assert_eq!(answer(9, 65), 17 << 32);
        assert_eq!(answer(8, 65), 17 << 32);
        assert_eq!(answer(8, 64), 18 << 32);
        assert_eq!(answer(7, 0), 18 << 32);
        assert_eq!(answer(9, 0), 3);
    }
}
