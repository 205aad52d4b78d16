//! The streams of the benchmark reach their states; each sees to that itself.

use std::collections::BTreeSet;

use compare::streams::streams;

#[test]
fn streams_are_built_and_have_names_of_their_own() {
    let streams = streams();
    assert!(streams.iter().all(|stream| !stream.timed.is_empty() && stream.repeats > 0));
    let names: BTreeSet<&str> = streams.iter().map(|stream| stream.name).collect();
    assert_eq!(names.len(), streams.len());
}
