//! Forms of a look up of one key in words that are lent, and so may be out of order or have a key twice. Each gives the
//! count of the first pair with the key.
//!
//! Whatever the form, it has to look at every key before the pair that it finds, and at all keys where there is none:
//! any of them could be the one looked for. So no form does with fewer keys than the walk, and one that halves looks at
//! as many besides. Forms only differ in what a key costs: the straight ones have no branch in the loop that looks at
//! the keys, which then goes to its end; the one by fours asks only once for four keys whether there are more.

use common::{HEAD_WORDS, PAIRS, PAIR_WORDS, WORDS};
use std::hint::black_box;

type Pair = [u64; PAIR_WORDS];

/// The words of a copy, and a key.
pub type Form = fn(&[u64], u64) -> Option<u64>;

pub const FORMS: [(&str, Form); 7] = [
    ("walk", walk),
    ("walk-straight", walk_straight),
    ("walk-fours", walk_fours),
    ("tested", tested),
    ("tested-straight", tested_straight),
    ("halved", halved),
    ("halved-straight", halved_straight),
];

/// The used pairs; none where the words are no copy.
fn used(words: &[u64]) -> &[Pair] {
    if words.len() != WORDS || words[0] > PAIRS as u64 {
        return &[];
    }
    words[HEAD_WORDS..][..PAIR_WORDS * words[0] as usize].as_chunks().0
}

fn first(pairs: &[Pair], key: u64) -> Option<u64> {
    pairs.iter().find(|pair| pair[0] == key).map(|pair| pair[1])
}

/// From the last pair on, so that the first one stays.
fn first_straight(pairs: &[Pair], key: u64) -> Option<u64> {
    let at = (0..pairs.len()).rev().fold(pairs.len(), |at, i| if pairs[i][0] == key { i } else { at });
    pairs.get(at).map(|pair| pair[1])
}

/// No key is there twice then.
fn rises(pairs: &[Pair]) -> bool {
    pairs.windows(2).all(|two| two[0][0] < two[1][0])
}

fn rises_straight(pairs: &[Pair]) -> bool {
    pairs.windows(2).fold(true, |rises, two| rises & (two[0][0] < two[1][0]))
}

/// Where the keys rise, the only place that the key can have.
fn place(pairs: &[Pair], key: u64) -> usize {
    pairs.partition_point(|pair| pair[0] < key)
}

fn count_at(pairs: &[Pair], at: usize, key: u64) -> Option<u64> {
    pairs.get(at).filter(|pair| pair[0] == key).map(|pair| pair[1])
}

/// A walk.
fn walk(words: &[u64], key: u64) -> Option<u64> {
    first(used(words), key)
}

fn walk_straight(words: &[u64], key: u64) -> Option<u64> {
    first_straight(used(words), key)
}

/// Four pairs a turn, as the proved library walks.
fn walk_fours(words: &[u64], key: u64) -> Option<u64> {
    let (fours, rest) = used(words).as_chunks::<4>();
    fours.iter().find_map(|four| first(four, key)).or_else(|| first(rest, key))
}

/// A test of the order, over all keys; then halving, or a walk where they do not rise.
fn tested(words: &[u64], key: u64) -> Option<u64> {
    let pairs = used(words);
    if rises(pairs) {
        count_at(pairs, place(pairs, key), key)
    } else {
        first(pairs, key)
    }
}

fn tested_straight(words: &[u64], key: u64) -> Option<u64> {
    let pairs = used(words);
    if rises_straight(pairs) {
        count_at(pairs, place(pairs, key), key)
    } else {
        first(pairs, key)
    }
}

/// Halving first. A pair that it finds is the first only if none before it has the key, and where it finds none there may
/// be one all the same: so a walk follows, over the pairs before, or over all.
fn halved(words: &[u64], key: u64) -> Option<u64> {
    let pairs = used(words);
    let at = place(pairs, key);
    match count_at(pairs, at, key) {
        Some(count) => first(&pairs[..at], key).or(Some(count)),
        None => first(pairs, key),
    }
}

fn halved_straight(words: &[u64], key: u64) -> Option<u64> {
    let pairs = used(words);
    let at = place(pairs, key);
    match count_at(pairs, at, key) {
        Some(count) => first_straight(&pairs[..at], key).or(Some(count)),
        None => first_straight(pairs, key),
    }
}

/// A copy with these pairs.
fn copy(pairs: &[Pair]) -> Vec<u64> {
    let mut words = vec![pairs.len() as u64, 0];
    words.extend(pairs.as_flattened());
    words.resize(WORDS, 0);
    words
}

/// Rounds of 512 look ups in a table whose pairs go into 512: each of its keys in turn, or one behind each, again and
/// again. So every key is looked up as often as each other one.
pub fn look_up(form: Form, pairs: usize, present: bool, rounds: u64) {
    let apart = u64::MAX / (pairs as u64 + 1);
    let table: Vec<Pair> = (1..=pairs as u64).map(|at| [at * apart, at]).collect();
    let words = copy(&table);
    let keys: Vec<u64> = table.iter().map(|pair| if present { pair[0] } else { pair[0] + apart / 2 }).collect();
    let turns = rounds * (PAIRS / pairs) as u64;
    let mut sum = 0;
    for _ in 0..turns {
        for &key in &keys {
            sum += form(black_box(&words), key).unwrap_or(0);
        }
    }
    let counts: u64 = table.iter().map(|pair| pair[1]).sum();
    assert_eq!(sum, if present { turns * counts } else { 0 }, "a look up differs");
}

#[cfg(test)]
mod tests {
    use super::*;
    use common::Random;

    /// All forms give this count.
    fn all_give(words: &[u64], key: u64, wanted: Option<u64>) {
        for (name, form) in FORMS {
            assert_eq!(form(words, key), wanted, "{name} of {key} in {words:?}");
        }
    }

    /// All forms agree with the walk, on what stands in a word and on the keys beside it.
    fn agree_on(words: &[u64], word: u64) {
        for key in [word, word.wrapping_sub(1), word.wrapping_add(1)] {
            all_give(words, key, walk(words, key));
        }
    }

    fn all_agree(words: &[u64]) {
        for &word in words {
            agree_on(words, word);
        }
    }

    fn rising(count: u64) -> Vec<Pair> {
        (1..=count).map(|at| [2 * at, at]).collect()
    }

    #[test]
    fn rising_keys_have_their_counts() {
        for count in [1, 2, 3, 6, 8, 64, 511, 512] {
            let words = copy(&rising(count));
            for at in 1..=count {
                all_give(&words, 2 * at, Some(at));
                all_give(&words, 2 * at + 1, None);
            }
            all_give(&words, 1, None);
        }
    }

    #[test]
    fn a_key_twice_has_its_first_count() {
        for length in [2, 3, 8, 17] {
            for first in 0..length {
                for second in first + 1..length {
                    let mut pairs = rising(length as u64);
                    let key = pairs[first][0];
                    pairs[second] = [key, 1000];
                    all_give(&copy(&pairs), key, Some(first as u64 + 1));
                    pairs[first][1] = 0;
                    all_give(&copy(&pairs), key, Some(0));
                    all_agree(&copy(&pairs));
                }
            }
        }
        all_give(&copy(&[[7, 3]; PAIRS]), 7, Some(3));
        all_agree(&copy(&[[7, 3]; PAIRS]));
    }

    #[test]
    fn out_of_order_keys_are_found() {
        for count in [2, 3, 8, 64, 512] {
            let falling: Vec<Pair> = rising(count).into_iter().rev().collect();
            for at in 1..=count {
                all_give(&copy(&falling), 2 * at, Some(at));
            }
            all_agree(&copy(&falling));
            let (mut swapped, last) = (rising(count), count as usize - 1);
            swapped.swap(0, last);
            all_give(&copy(&swapped), 2, Some(1));
            all_give(&copy(&swapped), 2 * count, Some(count));
            all_agree(&copy(&swapped));
        }
    }

    #[test]
    fn unused_words_are_not_looked_at() {
        let mut words = copy(&rising(PAIRS as u64));
        for used in [0, 1, 8, 511] {
            words[0] = used;
            all_give(&words, 2 * used + 2, None);
            all_agree(&words);
        }
    }

    #[test]
    fn what_is_no_copy_has_no_key() {
        let words = copy(&rising(8));
        all_give(&[], 2, None);
        all_give(&words[..WORDS - 1], 2, None);
        all_give(&[&words[..], &[0]].concat(), 2, None);
        for used in [PAIRS as u64 + 1, u64::MAX] {
            all_give(&[&[used], &words[1..]].concat(), 2, None);
        }
    }

    #[test]
    fn rounds_find_what_is_there() {
        for (_, form) in FORMS {
            for (pairs, present) in [(1, true), (8, false), (64, true), (512, false)] {
                look_up(form, pairs, present, 2);
            }
        }
    }

    #[test]
    fn random_words_agree() {
        let mut choose = Random::new(1);
        for _ in 0..300 {
            let count = choose.below(PAIRS + 1);
            let keys = choose.pick(&[2, 10, 1000, usize::MAX]);
            let mut pairs: Vec<Pair> = (0..count).map(|_| [choose.below(keys) as u64, choose.word()]).collect();
            if choose.chance(1, 2) {
                pairs.sort_unstable();
            }
            if choose.chance(1, 4) {
                pairs.dedup_by_key(|pair| pair[0]);
            }
            let words = copy(&pairs);
            for _ in 0..20 {
                agree_on(&words, choose.pick(&words));
            }
        }
    }
}
