//! What the original does without debug assertions, as it is shipped.

use crate::archetype::open as rows;
use crate::borrow::open as word;
use crate::entities::{open, Entities, Entity, Location};
use crate::types::sorted;
use crate::{bits, Head, MAX};

/// Number 0 free at generation 2, and reserved.
fn one_reserved() -> Entities {
    let e = open::one_freed();
    assert_eq!(e.reserve_entity().to_bits().get(), bits(0, 2));
    e
}

#[test]
fn alloc_gives_a_reserved_handle_out_again() {
    let mut e = one_reserved();
    assert_eq!(e.alloc().to_bits().get(), bits(0, 2));
}

#[test]
fn free_forgets_a_reservation() {
    let mut e = Entities::default();
    let first = e.alloc();
    e.meta[0].location = Location { archetype: 1, index: 0 };
    assert_eq!(e.reserve_entity().to_bits().get(), bits(1, 1));
    e.free(first).unwrap();
    assert_eq!(open::head(&e), Head { used: 1, pending: 1, cursor: 1, live: 0 });
    assert_eq!(e.reserve_entities(2).last().unwrap().to_bits().get(), bits(1, 1));
}

#[test]
fn an_unbalanced_release_is_not_noticed() {
    let w = word::build(0);
    w.release();
    assert_eq!(word::read(&w), u64::MAX);
    let w = word::build(1 << 63);
    w.release();
    assert_eq!(word::read(&w), (1 << 63) - 1);
}

#[test]
fn get_dynamic_answers_for_any_row() {
    let a = rows::build(vec![rows::info(sorted()[0], 1)], 64);
    let far = unsafe { a.get_dynamic(sorted()[0], 1, 9) }.unwrap().as_ptr();
    assert_eq!(far as usize - rows::column(&a, 0) as usize, 9);
}

#[test]
fn alloc_many_stores_index_max() {
    let mut e = open::one_freed();
    e.alloc_many(1, 1, MAX);
    assert_eq!(e.meta[0].location.index, MAX);
    assert_eq!(e.len(), 1);
    assert!(!e.contains(Entity::from_bits(bits(0, 2)).unwrap()), "live by count only");
}
