//! The first difference of two books, in words.

use std::collections::{BTreeMap, BTreeSet};
use std::fmt::Debug;

use reference::book::Book;

pub fn first_difference(expected: &Book, found: &Book) -> Option<String> {
    if expected == found {
        return None;
    }
    differs("day", &expected.day, &found.day)
        .or_else(|| list_difference("security", &expected.securities, &found.securities))
        .or_else(|| map_difference(&expected.accounts, &found.accounts))
        .or_else(|| map_difference(&expected.cash, &found.cash))
        .or_else(|| list_difference("waiting item", &expected.waiting, &found.waiting))
        .or_else(|| differs("rate", &expected.rate, &found.rate))
        .or_else(|| map_difference(&expected.requests, &found.requests))
}

fn differs<T: PartialEq + Debug>(name: &str, expected: &T, found: &T) -> Option<String> {
    (expected != found).then(|| format!("{name}: expected {expected:?}, found {found:?}"))
}

fn list_difference<T: PartialEq + Debug>(name: &str, expected: &[T], found: &[T]) -> Option<String> {
    let place = |place: usize| differs(&format!("{name} {}", place + 1), &expected.get(place), &found.get(place));
    (0..expected.len().max(found.len())).find_map(place)
}

fn map_difference<K, V>(expected: &BTreeMap<K, V>, found: &BTreeMap<K, V>) -> Option<String>
where
    K: Ord + Copy + Debug,
    V: PartialEq + Debug,
{
    let keys: BTreeSet<K> = expected.keys().chain(found.keys()).copied().collect();
    keys.iter().find_map(|key| differs(&format!("{key:?}"), &expected.get(key), &found.get(key)))
}
