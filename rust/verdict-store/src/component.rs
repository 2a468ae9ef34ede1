//! Components as plain bytes.

/// An array of bytes: what a component is in the store.
///
/// Only `[u8; N]` is one.
pub trait Bytes: AsRef<[u8]> + Sized + sealed::Sealed + 'static {
    /// How many bytes.
    const SIZE: usize;

    /// The array of these bytes, if there are as many.
    fn from_slice(bytes: &[u8]) -> Option<Self>;
}

mod sealed {
    pub trait Sealed {}
    impl<const N: usize> Sealed for [u8; N] {}
}

impl<const N: usize> Bytes for [u8; N] {
    const SIZE: usize = N;

    fn from_slice(bytes: &[u8]) -> Option<Self> {
        bytes.try_into().ok()
    }
}

/// A type whose values the store can hold: its number, and its bytes.
///
/// [`component!`](crate::component!) does it for a struct over one number. The size
/// is at most 64 bytes, and may be 0: a mark that an entity has or has not.
///
/// ```
/// use verdict_store::Component;
///
/// #[derive(Debug, PartialEq)]
/// struct Span {
///     from: u32,
///     to: u32,
/// }
///
/// impl Component for Span {
///     const TYPE: u32 = 2;
///     type Bytes = [u8; 8];
///
///     fn to_bytes(&self) -> [u8; 8] {
///         ((self.to as u64) << 32 | self.from as u64).to_le_bytes()
///     }
///     fn from_bytes(bytes: [u8; 8]) -> Span {
///         let both = u64::from_le_bytes(bytes);
///         Span { from: both as u32, to: (both >> 32) as u32 }
///     }
/// }
///
/// let span = Span { from: 3, to: 9 };
/// assert_eq!(Span::from_bytes(span.to_bytes()), span);
/// ```
pub trait Component: Sized + 'static {
    /// The type number: no two types have the same.
    const TYPE: u32;

    /// The array that holds a value.
    type Bytes: Bytes;

    /// The value's bytes.
    fn to_bytes(&self) -> Self::Bytes;

    /// The value of these bytes. Bytes that [`to_bytes`](Component::to_bytes)
    /// never gives come here only where a caller has written such bytes.
    fn from_bytes(bytes: Self::Bytes) -> Self;

    /// The type's column, for a [`Declaration`](crate::Declaration).
    fn column() -> Column {
        // A size that 32 bits cannot count is told as the largest that they can: both are
        // above the limit.
        let size = u32::try_from(Self::Bytes::SIZE).unwrap_or(u32::MAX);
        Column { kind: Self::TYPE, size }
    }
}

/// Makes a tuple struct over one number a [`Component`] of this type number, held
/// as its little-endian bytes.
///
/// ```
/// use verdict_store::{component, Component};
///
/// struct Cost(u32);
/// component!(Cost(u32), 7);
///
/// assert_eq!(Cost::TYPE, 7);
/// assert_eq!(Cost(258).to_bytes(), [2, 1, 0, 0]);
/// ```
#[macro_export]
macro_rules! component {
    ($name:ident($number:ty), $kind:expr) => {
        impl $crate::Component for $name {
            const TYPE: u32 = $kind;
            type Bytes = [u8; ::core::mem::size_of::<$number>()];

            fn to_bytes(&self) -> Self::Bytes {
                self.0.to_le_bytes()
            }
            fn from_bytes(bytes: Self::Bytes) -> Self {
                $name(<$number>::from_le_bytes(bytes))
            }
        }
    };
}

/// A column of a declaration: a type number and the size of its components.
#[derive(Clone, Copy, PartialEq, Eq, Hash, Debug)]
pub struct Column {
    /// The type number.
    pub kind: u32,
    /// Bytes of a component, at most 64.
    pub size: u32,
}

/// The components of a new entity: a tuple of up to sixteen, in any order.
///
/// ```
/// # use verdict_store::{Bundle, Component};
/// # struct A; struct B;
/// # impl Component for A { const TYPE: u32 = 1; type Bytes = [u8; 1];
/// #     fn to_bytes(&self) -> [u8; 1] { [10] } fn from_bytes(_: [u8; 1]) -> A { A } }
/// # impl Component for B { const TYPE: u32 = 2; type Bytes = [u8; 2];
/// #     fn to_bytes(&self) -> [u8; 2] { [20, 21] } fn from_bytes(_: [u8; 2]) -> B { B } }
/// let mut kinds = Vec::new();
/// (B, A).each(&mut |kind, _| kinds.push(kind));
/// assert_eq!(kinds, [2, 1]);
/// ```
pub trait Bundle {
    /// Calls with the type number and the bytes of each component.
    fn each(&self, take: &mut dyn FnMut(u32, &[u8]));

    /// The columns, for a [`Declaration`](crate::Declaration).
    fn columns() -> Vec<Column>;
}

macro_rules! bundles {
    ($($name:ident)*) => {
        impl<$($name: Component),*> Bundle for ($($name,)*) {
            #[allow(non_snake_case, unused_variables)]
            fn each(&self, take: &mut dyn FnMut(u32, &[u8])) {
                let ($($name,)*) = self;
                $(take($name::TYPE, $name.to_bytes().as_ref());)*
            }

            fn columns() -> Vec<Column> {
                vec![$($name::column()),*]
            }
        }
        bundles!(@ $($name)*);
    };
    (@ $first:ident $($rest:ident)*) => { bundles!($($rest)*); };
    (@) => {};
}

bundles!(A B C D E F G H I J K L M N O P);
