//! Guards, words, and the sentences of refusals and faults.

use verdict_store::{
    component, Bundle, Column, Component, Declaration, Entity, Refusal, VerdictStore,
};

#[derive(Clone, Copy, Debug, PartialEq)]
struct Pair(u16);

component!(Pair(u16), 3);

#[derive(Clone, Copy, Debug, PartialEq)]
struct Mark;

impl Component for Mark {
    const TYPE: u32 = 1;
    type Bytes = [u8; 0];
    fn to_bytes(&self) -> [u8; 0] {
        []
    }
    fn from_bytes(_: [u8; 0]) -> Mark {
        Mark
    }
}

#[derive(Clone, Copy, Debug, PartialEq)]
struct Wide([u8; 64]);

impl Component for Wide {
    const TYPE: u32 = 9;
    type Bytes = [u8; 64];
    fn to_bytes(&self) -> [u8; 64] {
        self.0
    }
    fn from_bytes(bytes: [u8; 64]) -> Wide {
        Wide(bytes)
    }
}

fn store() -> VerdictStore {
    Declaration::new(8)
        .of::<(Pair,)>(8)
        .of::<(Mark, Pair)>(8)
        .of::<(Mark, Pair, Wide)>(4)
        .build()
        .unwrap()
}

#[test]
fn a_guard_ends_its_borrow() {
    let mut store = store();
    let e = store.spawn((Pair(7),)).unwrap();
    {
        let one = store.borrow(1, Pair::TYPE).unwrap();
        let two = store.borrow(1, Pair::TYPE).unwrap();
        assert_eq!(one.bytes(), two.bytes());
        assert_eq!(store.read::<Pair>(e), Ok(Pair(7)));
    }
    {
        let mut column = store.borrow_mut(1, Pair::TYPE).unwrap();
        column.row_mut(0).unwrap().copy_from_slice(&Pair(8).to_bytes());
        assert_eq!(column.row_mut(1), None);
        assert_eq!(column.values::<Pair>().collect::<Vec<_>>(), [Pair(8)]);
    }
    assert_eq!(store.read::<Pair>(e), Ok(Pair(8)));
    store.despawn(e).unwrap();
    assert!(store.is_empty());
}

#[test]
fn a_forgotten_guard_holds_its_column() {
    let mut store = store();
    let e = store.spawn((Pair(7),)).unwrap();
    std::mem::forget(store.borrow_mut(1, Pair::TYPE).unwrap());
    assert_eq!(store.read::<Pair>(e), Err(Refusal::UniqueHeld));
    assert_eq!(store.write(e, Pair(1)), Err(Refusal::WordHeld));
    assert_eq!(store.borrow(1, Pair::TYPE).err(), Some(Refusal::UniqueHeld));
    assert_eq!(store.despawn(e), Err(Refusal::WordHeld));
    assert_eq!(store.release(1, Pair::TYPE), Err(Refusal::WrongRelease));
    store.release_mut(1, Pair::TYPE).unwrap();
    assert_eq!(store.release(1, Pair::TYPE), Err(Refusal::NotHeld));
    store.despawn(e).unwrap();
}

#[test]
fn a_forgotten_shared_guard_holds_its_column() {
    let mut store = store();
    let e = store.spawn((Pair(7),)).unwrap();
    std::mem::forget(store.borrow(1, Pair::TYPE).unwrap());
    std::mem::forget(store.borrow(1, Pair::TYPE).unwrap());
    assert_eq!(store.read::<Pair>(e), Ok(Pair(7)));
    assert_eq!(store.borrow(1, Pair::TYPE).unwrap().bytes(), [7, 0]);
    assert_eq!(store.write(e, Pair(1)), Err(Refusal::WordHeld));
    assert_eq!(store.borrow_mut(1, Pair::TYPE).err(), Some(Refusal::WordHeld));
    assert_eq!(store.remove::<Pair>(e), Err(Refusal::WordHeld));
    assert_eq!(store.spawn(()), Err(Refusal::WordHeld));
    assert_eq!(store.flush(), Err(Refusal::WordHeld));
    assert_eq!(store.clear(), Err(Refusal::WordHeld));
    assert_eq!(store.release_mut(1, Pair::TYPE), Err(Refusal::WrongRelease));
    store.release(1, Pair::TYPE).unwrap();
    assert_eq!(store.despawn(e), Err(Refusal::WordHeld));
    store.release(1, Pair::TYPE).unwrap();
    assert_eq!(store.release(1, Pair::TYPE), Err(Refusal::NotHeld));
    store.despawn(e).unwrap();
}

#[test]
fn a_copy_is_borrowed_by_nobody() {
    let mut store = store();
    let e = store.spawn((Pair(7),)).unwrap();
    let column = store.borrow(1, Pair::TYPE).unwrap();
    let mut copy = store.clone();
    drop(column);
    copy.despawn(e).unwrap();
    assert_eq!((copy.len(), store.len()), (0, 1));
    assert_eq!(store.read::<Pair>(e), Ok(Pair(7)));
}

#[test]
fn two_columns_at_once() {
    let mut store = store();
    for i in 0..4 {
        store.spawn((Pair(i), Mark, Wide([i as u8; 64]))).unwrap();
    }
    let archetype = store.archetype_of::<(Wide, Mark, Pair)>().unwrap();
    let mut column = store.borrow_mut(archetype, Pair::TYPE).unwrap();
    assert_eq!(column.beside(Pair::TYPE), Err(Refusal::UniqueHeld));
    assert_eq!(column.beside(77), Err(Refusal::NoComponent));
    let (pairs, wides) = column.beside(Wide::TYPE).unwrap();
    for (pair, wide) in pairs.chunks_mut(2).zip(wides.chunks(64)) {
        pair.copy_from_slice(&wide[..2]);
    }
    let (_, marks) = column.beside(Mark::TYPE).unwrap();
    assert!(marks.is_empty());
    drop(column);
    let column = store.borrow_mut(archetype, Wide::TYPE).unwrap();
    assert_eq!(column.bytes()[64], 1);
    drop(column);
    let mut column = store.borrow_mut(archetype, Wide::TYPE).unwrap();
    let (wides, pairs) = column.beside(Pair::TYPE).unwrap();
    assert_eq!((wides.len(), pairs), (256, &[0, 0, 1, 1, 2, 2, 3, 3][..]));
    drop(column);
    assert_eq!(store.borrow(archetype, Mark::TYPE).unwrap().values::<Mark>().count(), 4);
    assert_eq!(store.borrow(archetype, Mark::TYPE).unwrap().values::<Pair>().count(), 0);
}

/// As wide as `Pair`, and another type.
#[derive(Clone, Copy, Debug, PartialEq)]
struct Other(u16);

component!(Other(u16), 4);

#[test]
fn a_column_has_no_values_of_another_type() {
    let mut store = store();
    store.spawn((Pair(7),)).unwrap();
    let column = store.borrow(1, Pair::TYPE).unwrap();
    assert_eq!(column.values::<Other>().count(), 0);
    assert_eq!(column.values::<Pair>().collect::<Vec<_>>(), [Pair(7)]);
    drop(column);
    let column = store.borrow_mut(1, Pair::TYPE).unwrap();
    assert_eq!(column.values::<Other>().count(), 0);
    assert_eq!(column.values::<Pair>().collect::<Vec<_>>(), [Pair(7)]);
}

#[test]
fn bundles_in_any_order() {
    let mut store = store();
    let a = store.spawn((Mark, Pair(1))).unwrap();
    let b = store.spawn((Pair(2), Mark)).unwrap();
    assert_eq!(store.entities(2).unwrap().collect::<Vec<_>>(), [a, b]);
    assert_eq!(store.spawn((Mark, Mark)), Err(Refusal::BadPlace));
    assert_eq!(store.spawn((Mark,)), Err(Refusal::BadPlace));
    let empty = store.spawn(()).unwrap();
    assert_eq!(store.get(empty).unwrap().archetype, 0);
    assert_eq!(store.entities(9).err(), Some(Refusal::BadPlace));
    assert_eq!(<(Mark, Pair)>::columns().len(), 2);
}

#[test]
fn a_batch_of_handles() {
    let mut store = store();
    let batch = store.reserve_entities(3).unwrap();
    assert_eq!(batch.len(), 3);
    let batch: Vec<Entity> = batch.collect();
    assert!(batch.iter().all(|e| store.contains(*e)));
    assert_eq!(store.len(), 0);
    assert_eq!(store.spawn((Pair(1),)), Err(Refusal::NotFlushed));
    assert_eq!(store.reserve_entities(6).err(), Some(Refusal::NoRoom));
    assert_eq!(store.reserve_entities(u32::MAX).err(), Some(Refusal::NoRoom));
    store.flush().unwrap();
    assert_eq!(
        store.entities(0).unwrap().rev().collect::<Vec<_>>(),
        [batch[2], batch[1], batch[0]]
    );
    store.insert(batch[1], Pair(5)).unwrap();
    assert_eq!(store.remove::<Pair>(batch[1]), Ok(Pair(5)));
    store.clear().unwrap();
    assert!(!store.contains(batch[1]));
}

#[test]
fn refusals_have_numbers_and_sentences() {
    for number in 1..=15 {
        let refusal = Refusal::from_number(number).unwrap();
        assert_eq!(refusal.number(), number);
        assert!(refusal.to_string().ends_with('.'));
    }
    assert_eq!(Refusal::from_number(0), None);
    assert_eq!(Refusal::from_number(16), None);
    assert_eq!(Refusal::NoSuchEntity.number(), 2);
}

#[test]
fn faults_are_told_in_words() {
    let a = Column { kind: 4, size: 70 };
    let b = Column { kind: 4, size: 8 };
    let wrong = Declaration::new(10)
        .archetype(5000, [a])
        .archetype(1, [b])
        .archetype(1, [b, b])
        .archetype(1, (0..17).map(|kind| Column { kind: 100 + kind, size: 1 }))
        .build()
        .unwrap_err();
    let said: Vec<String> = wrong.faults().iter().map(ToString::to_string).collect();
    assert_eq!(
        said,
        [
            "archetype 1 has 5000 rows, above 4096",
            "type 4 in archetype 1 has 70 bytes, above 64",
            "archetypes 1 and 2 have the same types",
            "archetype 3 has type 4 twice",
            "archetype 4 has 17 columns, above 16",
            "type 4 has 70 bytes in one archetype and 8 in another",
            "type 4 has 70 bytes in one archetype and 8 in another",
            "type 4 has 70 bytes in one archetype and 8 in another",
        ]
    );
    let many =
        (0..16u32).fold(Declaration::new(1), |d, kind| d.archetype(1, [Column { kind, size: 1 }]));
    let said = many.build().unwrap_err().to_string();
    assert_eq!(said, "17 archetypes, archetype 0 among them, are more than 16");
}
