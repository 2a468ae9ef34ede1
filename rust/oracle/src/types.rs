//! Type numbers for `TypeId`s.
//!
//! The original finds a column by its `TypeId`, and `TypeId`s have an order of
//! their own. Here 512 of them, sorted, stand for any type numbers: the i-th
//! declared number takes the place 2i + 1, an undeclared number the even place
//! between its declared neighbours. So the order of the type numbers is the
//! order of the `TypeId`s, whatever the compiler makes of them.

use core::any::TypeId;
use std::sync::OnceLock;

struct M<const A: u8, const B: u8>;

macro_rules! ids {
    ($($a:literal)*) => { [$(
        [
            TypeId::of::<M<$a, 0>>(), TypeId::of::<M<$a, 1>>(),
            TypeId::of::<M<$a, 2>>(), TypeId::of::<M<$a, 3>>(),
            TypeId::of::<M<$a, 4>>(), TypeId::of::<M<$a, 5>>(),
            TypeId::of::<M<$a, 6>>(), TypeId::of::<M<$a, 7>>(),
            TypeId::of::<M<$a, 8>>(), TypeId::of::<M<$a, 9>>(),
            TypeId::of::<M<$a, 10>>(), TypeId::of::<M<$a, 11>>(),
            TypeId::of::<M<$a, 12>>(), TypeId::of::<M<$a, 13>>(),
            TypeId::of::<M<$a, 14>>(), TypeId::of::<M<$a, 15>>(),
        ]
    ),*] };
}

/// The `TypeId`s in their order.
pub(crate) fn sorted() -> &'static [TypeId] {
    static SORTED: OnceLock<Vec<TypeId>> = OnceLock::new();
    SORTED.get_or_init(|| {
        let mut all = ids!(
            0 1 2 3 4 5 6 7 8 9 10 11 12 13 14 15
            16 17 18 19 20 21 22 23 24 25 26 27 28 29 30 31
        )
        .concat();
        all.sort();
        all
    })
}

/// The declared type numbers, ascending, each once.
pub(crate) struct TypeNumbers(Vec<u32>);

impl TypeNumbers {
    pub(crate) fn new(types: &[u32]) -> TypeNumbers {
        let mut declared = types.to_vec();
        declared.sort();
        declared.dedup();
        TypeNumbers(declared)
    }

    pub(crate) fn id(&self, ty: u32) -> TypeId {
        match self.0.binary_search(&ty) {
            Ok(i) => sorted()[2 * i + 1],
            Err(i) => sorted()[2 * i],
        }
    }
}
