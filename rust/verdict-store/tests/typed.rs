//! The calls with values: a type of another size takes nothing and spoils nothing, and
//! refusals come in document 01's order.

use verdict_store::{
    component, Bundle, Column, Component, Declaration, Entity, Place, Refusal, VerdictStore,
};

#[derive(Clone, Copy, Debug, PartialEq)]
struct Pair(u16);
component!(Pair(u16), 3);

#[derive(Clone, Copy, Debug, PartialEq)]
struct Four(u32);
component!(Four(u32), 5);

/// The number of `Pair` with the size of `Four`.
#[derive(Clone, Copy, Debug, PartialEq)]
struct LongPair(u32);
component!(LongPair(u32), 3);

/// The number of `Four` with the size of `Pair`.
#[derive(Clone, Copy, Debug, PartialEq)]
struct ShortFour(u16);
component!(ShortFour(u16), 5);

/// Declared nowhere.
#[derive(Clone, Copy, Debug, PartialEq)]
struct Stranger(u32);
component!(Stranger(u32), 77);

fn store() -> VerdictStore {
    Declaration::new(4).of::<(Pair,)>(2).of::<(Pair, Four)>(4).build().unwrap()
}

#[test]
fn a_removal_by_a_type_of_another_size_takes_nothing() {
    let mut store = store();
    let e = store.spawn((Pair(7), Four(9))).unwrap();
    assert_eq!(store.remove::<ShortFour>(e), Err(Refusal::BadLength));
    assert_eq!(store.get(e), Ok(Place { archetype: 2, index: 0 }));
    assert_eq!(store.remove::<Four>(e), Ok(Four(9)));
    assert_eq!(store.get(e), Ok(Place { archetype: 1, index: 0 }));
}

#[test]
fn another_size_is_refused_before_all_else() {
    let mut store = store();
    let gone = store.spawn((Pair(7), Four(9))).unwrap();
    store.despawn(gone).unwrap();
    let bare = store.spawn((Pair(1),)).unwrap();
    let waiting = store.reserve_entity().unwrap();
    store.hold_mut(2, 5).unwrap();
    for entity in [gone, bare, waiting] {
        assert_eq!(store.read::<ShortFour>(entity), Err(Refusal::BadLength));
        assert_eq!(store.write(entity, ShortFour(1)), Err(Refusal::BadLength));
        assert_eq!(store.insert(entity, ShortFour(1)), Err(Refusal::BadLength));
        assert_eq!(store.remove::<ShortFour>(entity), Err(Refusal::BadLength));
    }
    // Of a type that is declared nowhere no size is tested.
    assert_eq!(store.read::<Stranger>(gone), Err(Refusal::NoSuchEntity));
    assert_eq!(store.read::<Stranger>(bare), Err(Refusal::NoComponent));
    assert_eq!(store.remove::<Stranger>(bare), Err(Refusal::NotFlushed));
}

#[test]
fn a_refused_removal_gives_its_own_refusal_and_takes_nothing() {
    let mut store = store();
    let full = [(); 2].map(|()| store.spawn((Pair(1),)).unwrap());
    let e = store.spawn((Pair(7), Four(9))).unwrap();
    assert_eq!(store.remove::<Four>(e), Err(Refusal::NoRoom));
    assert_eq!(store.remove::<Pair>(e), Err(Refusal::NoTarget));
    assert_eq!(store.remove::<Four>(full[0]), Err(Refusal::NoComponent));
    // A read of a held column is refused with 7, or granted; a removal with 8.
    store.hold_mut(2, 5).unwrap();
    assert_eq!(store.read::<Four>(e), Err(Refusal::UniqueHeld));
    assert_eq!(store.remove::<Four>(e), Err(Refusal::WordHeld));
    store.release_mut(2, 5).unwrap();
    store.hold(2, 5).unwrap();
    assert_eq!(store.read::<Four>(e), Ok(Four(9)));
    assert_eq!(store.remove::<Four>(e), Err(Refusal::WordHeld));
    store.release(2, 5).unwrap();
    // A read of an unflushed store is granted.
    let waiting = store.reserve_entity().unwrap();
    assert_eq!(store.read::<Four>(waiting), Err(Refusal::NoComponent));
    assert_eq!(store.remove::<Four>(waiting), Err(Refusal::NotFlushed));
    assert_eq!(store.remove::<Four>(e), Err(Refusal::NotFlushed));
    store.flush().unwrap();
    store.despawn(full[0]).unwrap();
    assert_eq!(store.remove::<Four>(full[0]), Err(Refusal::NoSuchEntity));
    assert_eq!(store.remove::<Four>(e), Ok(Four(9)));
    assert_eq!(store.read::<Pair>(e), Ok(Pair(7)));
}

#[test]
fn each_component_of_a_tuple_has_its_columns_size() {
    let mut store = store();
    let e = Entity::new(1, 4).unwrap();
    // The two sizes changed places: their sum is that of the row.
    let wrong = (LongPair(0x0403_0201), ShortFour(0x0605));
    assert_eq!(store.spawn(wrong), Err(Refusal::BadLength));
    assert_eq!(store.spawn_at(e, wrong), Err(Refusal::BadLength));
    assert!(store.is_empty());
    // Before 3 and 8.
    store.reserve_entity().unwrap();
    store.hold(1, 3).unwrap();
    assert_eq!(store.spawn(wrong), Err(Refusal::BadLength));
    assert_eq!(store.spawn_at(e, (LongPair(1),)), Err(Refusal::BadLength));
}

#[test]
fn a_tuple_that_no_archetype_has_is_refused_in_its_turn() {
    let mut store = store();
    let e = Entity::new(1, 4).unwrap();
    store.hold(1, 3).unwrap();
    assert_eq!(store.spawn((Four(1),)), Err(Refusal::BadPlace));
    assert_eq!(store.spawn_at(e, (Pair(1), Pair(1))), Err(Refusal::BadPlace));
    // No size is tested where no archetype has the types.
    assert_eq!(store.spawn((ShortFour(1),)), Err(Refusal::BadPlace));
    assert_eq!(store.spawn_at(e, (Stranger(1), LongPair(1))), Err(Refusal::BadPlace));
    store.reserve_entity().unwrap();
    assert_eq!(store.spawn((Four(1),)), Err(Refusal::NotFlushed));
    assert_eq!(store.spawn((Pair(1), Pair(1))), Err(Refusal::NotFlushed));
    assert_eq!(store.spawn_at(e, (Four(1),)), Err(Refusal::NotFlushed));
    assert_eq!(store.spawn_at(e, (Stranger(1), LongPair(1))), Err(Refusal::NotFlushed));
}

/// A bundle that is no tuple: as many components of a type as told, each of the same bytes.
struct Repeated(u32, Vec<u8>, usize);

impl Bundle for Repeated {
    fn each(&self, take: &mut dyn FnMut(u32, &[u8])) {
        (0..self.2).for_each(|_| take(self.0, &self.1));
    }
    fn columns() -> Vec<Column> {
        vec![Pair::column()]
    }
}

#[test]
fn a_bundle_of_any_size_is_refused_as_a_tuple_is() {
    let mut store = store();
    let pair = |bytes: usize, count: usize| Repeated(Pair::TYPE, vec![7; bytes], count);
    for bytes in [0, 1, 3, 64, 65, 1024, 1025] {
        assert_eq!(store.spawn(pair(bytes, 1)), Err(Refusal::BadLength), "{bytes}");
    }
    for count in [2, 16, 17, 600] {
        assert_eq!(store.spawn(pair(2, count)), Err(Refusal::BadPlace), "{count}");
    }
    assert_eq!(store.spawn(pair(1025, 600)), Err(Refusal::BadPlace));
    let e = store.spawn(pair(2, 1)).unwrap();
    assert_eq!(store.read::<Pair>(e), Ok(Pair(0x0707)));
    store.reserve_entity().unwrap();
    assert_eq!(store.spawn(pair(1025, 1)), Err(Refusal::BadLength));
    assert_eq!(store.spawn(pair(1025, 17)), Err(Refusal::NotFlushed));
}

/// The three ways in which a number comes to a generation that it had.
#[test]
fn an_old_handle_may_name_a_new_entity() {
    let mut store = store();
    let old = store.spawn((Pair(1),)).unwrap();
    store.despawn(old).unwrap();
    let next = store.spawn((Pair(2),)).unwrap();
    assert_eq!((old.to_string(), next.to_string()), ("0v1".into(), "0v2".into()));
    assert_eq!(store.read::<Pair>(old), Err(Refusal::NoSuchEntity));

    store.clear().unwrap();
    assert_eq!(store.read::<Pair>(old), Err(Refusal::NoSuchEntity));
    assert_eq!(store.spawn((Pair(3),)), Ok(old));
    assert_eq!(store.read::<Pair>(old), Ok(Pair(3)));

    store.despawn(old).unwrap();
    store.spawn_at(old, (Pair(4),)).unwrap();
    assert_eq!(store.read::<Pair>(old), Ok(Pair(4)));

    let last = Entity::new(0, u32::MAX).unwrap();
    store.spawn_at(last, (Pair(5),)).unwrap();
    assert_eq!(store.read::<Pair>(old), Err(Refusal::NoSuchEntity));
    store.despawn(last).unwrap();
    assert_eq!(store.spawn((Pair(6),)), Ok(old));
    assert_eq!(store.read::<Pair>(old), Ok(Pair(6)));
}

/// A type of 8 bytes more than 32 bits can count. No value of it is ever made.
#[cfg(target_pointer_width = "64")]
struct Huge;

#[cfg(target_pointer_width = "64")]
impl Component for Huge {
    const TYPE: u32 = 6;
    type Bytes = [u8; (1 << 32) + 8];
    fn to_bytes(&self) -> Self::Bytes {
        unreachable!()
    }
    fn from_bytes(_: Self::Bytes) -> Huge {
        Huge
    }
}

#[cfg(target_pointer_width = "64")]
#[test]
fn a_size_that_cannot_be_counted_is_told_as_the_largest() {
    assert_eq!(Huge::column(), Column { kind: 6, size: u32::MAX });
    let wrong = Declaration::new(1).of::<(Huge,)>(1).build().unwrap_err();
    assert_eq!(wrong.to_string(), "type 6 in archetype 1 has 4294967295 bytes, above 64");
}
