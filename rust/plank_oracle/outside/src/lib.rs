//! Stands for the outside crates that Plank's files name: each file's crate names this one as `hashbrown`,
//! `allocator_api2`, `alloy_primitives`, `plank_test_utils` and `pretty_assertions`.

use std::collections::{self, hash_map, hash_set};
use std::hash::{BuildHasherDefault, Hash, Hasher};
use std::ops::{Deref, DerefMut};

/// `allocator_api2::alloc`.
pub mod alloc {
    /// An allocator; there is only the one.
    pub trait Allocator {}

    /// The allocator of the standard library.
    #[derive(Clone, Copy, Debug, Default)]
    pub struct Global;

    impl Allocator for Global {}
}

/// `allocator_api2::vec`.
pub mod vec {
    use super::*;
    use crate::alloc::{Allocator, Global};
    pub use std::vec::Drain;

    /// The standard library's vector, with an allocator that is only carried along.
    #[derive(Debug)]
    pub struct Vec<T, A: Allocator = Global> {
        inner: std::vec::Vec<T>,
        alloc: A,
    }

    impl<T> Vec<T> {
        /// An empty one.
        pub const fn new() -> Self {
            Vec { inner: std::vec::Vec::new(), alloc: Global }
        }

        /// An empty one, with room.
        pub fn with_capacity(capacity: usize) -> Self {
            Vec { inner: std::vec::Vec::with_capacity(capacity), alloc: Global }
        }
    }

    impl<T, A: Allocator> Vec<T, A> {
        /// An empty one.
        pub const fn new_in(alloc: A) -> Self {
            Vec { inner: std::vec::Vec::new(), alloc }
        }

        /// An empty one, with room.
        pub fn with_capacity_in(capacity: usize, alloc: A) -> Self {
            Vec { inner: std::vec::Vec::with_capacity(capacity), alloc }
        }
    }

    impl<T> Default for Vec<T> {
        fn default() -> Self {
            Vec::new()
        }
    }

    impl<T: Clone, A: Allocator + Clone> Clone for Vec<T, A> {
        fn clone(&self) -> Self {
            Vec { inner: self.inner.clone(), alloc: self.alloc.clone() }
        }
    }

    impl<T> FromIterator<T> for Vec<T> {
        fn from_iter<I: IntoIterator<Item = T>>(iter: I) -> Self {
            Vec { inner: std::vec::Vec::from_iter(iter), alloc: Global }
        }
    }

    impl<T, A: Allocator> Deref for Vec<T, A> {
        type Target = std::vec::Vec<T>;

        fn deref(&self) -> &Self::Target {
            &self.inner
        }
    }

    impl<T, A: Allocator> DerefMut for Vec<T, A> {
        fn deref_mut(&mut self) -> &mut Self::Target {
            &mut self.inner
        }
    }
}

/// Folds each number into the state by one wide multiplication, which is how hashbrown's own hasher works.
#[derive(Clone, Copy, Debug, Default)]
pub struct FoldHasher(u64);

impl Hasher for FoldHasher {
    fn finish(&self) -> u64 {
        self.0
    }

    fn write(&mut self, bytes: &[u8]) {
        bytes.iter().for_each(|&byte| self.write_u64(byte.into()));
    }

    fn write_u32(&mut self, number: u32) {
        self.write_u64(number.into());
    }

    fn write_u64(&mut self, number: u64) {
        let wide = u128::from(self.0 ^ number ^ 0x243f_6a88_85a3_08d3) * 0x9e37_79b9_7f4a_7c15;
        self.0 = wide as u64 ^ (wide >> 64) as u64;
    }
}

type Build = BuildHasherDefault<FoldHasher>;

/// `hashbrown::HashSet`: the standard library's set, which is hashbrown's, with a hasher as quick as hashbrown's.
#[derive(Debug)]
pub struct HashSet<T>(collections::HashSet<T, Build>);

impl<T> HashSet<T> {
    /// An empty one.
    pub fn new() -> Self {
        HashSet(collections::HashSet::default())
    }
}

impl<T> Default for HashSet<T> {
    fn default() -> Self {
        HashSet::new()
    }
}

impl<T: Clone> Clone for HashSet<T> {
    fn clone(&self) -> Self {
        HashSet(self.0.clone())
    }

    fn clone_from(&mut self, source: &Self) {
        self.0.clone_from(&source.0);
    }
}

impl<T> Deref for HashSet<T> {
    type Target = collections::HashSet<T, Build>;

    fn deref(&self) -> &Self::Target {
        &self.0
    }
}

impl<T> DerefMut for HashSet<T> {
    fn deref_mut(&mut self) -> &mut Self::Target {
        &mut self.0
    }
}

impl<'a, T> IntoIterator for &'a HashSet<T> {
    type Item = &'a T;
    type IntoIter = hash_set::Iter<'a, T>;

    fn into_iter(self) -> Self::IntoIter {
        self.0.iter()
    }
}

/// `hashbrown::HashMap`: the standard library's map, with the same hasher.
#[derive(Clone, Debug)]
pub struct HashMap<K, V>(collections::HashMap<K, V, Build>);

impl<K, V> HashMap<K, V> {
    /// An empty one.
    pub fn new() -> Self {
        HashMap(collections::HashMap::default())
    }
}

impl<K, V> Default for HashMap<K, V> {
    fn default() -> Self {
        HashMap::new()
    }
}

impl<K: Eq + Hash, V> HashMap<K, V> {
    /// The entry of a key.
    pub fn entry(&mut self, key: K) -> hash_map::Entry<'_, K, V> {
        self.0.entry(key)
    }
}

impl<K, V> Deref for HashMap<K, V> {
    type Target = collections::HashMap<K, V, Build>;

    fn deref(&self) -> &Self::Target {
        &self.0
    }
}

impl<K, V> DerefMut for HashMap<K, V> {
    fn deref_mut(&mut self) -> &mut Self::Target {
        &mut self.0
    }
}

/// `alloy_primitives::U256`: the value of a large constant. No analysis reads one.
#[derive(Clone, Copy, Debug, Default, PartialEq, Eq)]
pub struct U256(u128);

impl std::fmt::LowerHex for U256 {
    fn fmt(&self, f: &mut std::fmt::Formatter<'_>) -> std::fmt::Result {
        self.0.fmt(f)
    }
}

/// `alloy_primitives::hex`. Only text is made with it.
pub mod hex {
    /// The bytes, to be written out.
    pub fn display(bytes: &[u8]) -> impl std::fmt::Display {
        bytes.iter().map(|byte| format!("{byte:02x}")).collect::<String>()
    }
}

/// `plank_test_utils::dedent_preserve_indent`. Only text is compared with it.
pub fn dedent_preserve_indent(text: &str) -> String {
    text.to_string()
}

/// `pretty_assertions::assert_str_eq`.
#[macro_export]
macro_rules! assert_str_eq {
    ($($all:tt)*) => { assert_eq!($($all)*) };
}
