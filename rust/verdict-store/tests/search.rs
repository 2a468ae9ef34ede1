//! The worked example writes what it is to write, which was worked out by hand.

#[allow(dead_code)]
#[path = "../examples/search.rs"]
mod example;

const EXPECTED: &str = "\
length 1: 3 candidates, first 0v1, last 2v1; 3 refuted, 0 proven, 0 timed out so far
length 2: 9 candidates, first 2v2, last 8v1; 8 refuted, 0 proven, 1 timed out so far
length 3: 24 candidates, first 7v2, last 24v1; 19 refuted, 1 proven, 5 timed out so far
proven: 4v2 is did, 3 steps
8v1, nn, has no verdict: The entity or the archetype has no such component.
8v1 given more time: Refuted
8v1 after it left: refusal 2. There is no such entity: it was despawned, or never there.
5 entities are left
";

#[test]
fn the_search_finds_what_it_is_to_find() {
    let mut out = Vec::new();
    example::search(&mut out).unwrap();
    assert_eq!(String::from_utf8(out).unwrap(), EXPECTED);
}
