//! The standard library with a HashSet and a HashMap that are walked by rising element or key.
//! Handed to rustc as the crate `std` when the ordered driver is built.

extern crate std as real;

pub use real::*;

pub mod collections {
    pub use crate::real::collections::*;

    use crate::real::{
        collections::{HashMap as RealMap, HashSet as RealSet},
        hash::Hash,
        ops::{Deref, DerefMut},
        vec::IntoIter,
    };

    #[derive(Debug, Clone)]
    pub struct HashSet<T>(RealSet<T>);

    impl<T> HashSet<T> {
        pub fn new() -> Self {
            Self(RealSet::new())
        }
    }

    impl<T: Ord> HashSet<T> {
        pub fn iter(&self) -> IntoIter<&T> {
            rising(self.0.iter())
        }

        pub fn drain(&mut self) -> IntoIter<T> {
            rising(self.0.drain())
        }
    }

    fn rising<T: Ord>(elements: impl Iterator<Item = T>) -> IntoIter<T> {
        let mut elements: Vec<T> = elements.collect();
        elements.sort();
        elements.into_iter()
    }

    impl<T> Default for HashSet<T> {
        fn default() -> Self {
            Self::new()
        }
    }

    impl<T> Deref for HashSet<T> {
        type Target = RealSet<T>;

        fn deref(&self) -> &RealSet<T> {
            &self.0
        }
    }

    impl<T> DerefMut for HashSet<T> {
        fn deref_mut(&mut self) -> &mut RealSet<T> {
            &mut self.0
        }
    }

    impl<T: Eq + Hash> Extend<T> for HashSet<T> {
        fn extend<I: IntoIterator<Item = T>>(&mut self, elements: I) {
            self.0.extend(elements);
        }
    }

    impl<T: Eq + Hash> FromIterator<T> for HashSet<T> {
        fn from_iter<I: IntoIterator<Item = T>>(elements: I) -> Self {
            Self(elements.into_iter().collect())
        }
    }

    #[derive(Debug, Clone)]
    pub struct HashMap<K, V>(RealMap<K, V>);

    impl<K, V> HashMap<K, V> {
        pub fn new() -> Self {
            Self(RealMap::new())
        }
    }

    impl<K, V> Default for HashMap<K, V> {
        fn default() -> Self {
            Self::new()
        }
    }

    impl<K, V> Deref for HashMap<K, V> {
        type Target = RealMap<K, V>;

        fn deref(&self) -> &RealMap<K, V> {
            &self.0
        }
    }

    impl<K, V> DerefMut for HashMap<K, V> {
        fn deref_mut(&mut self) -> &mut RealMap<K, V> {
            &mut self.0
        }
    }

    impl<K: Eq + Hash, V> FromIterator<(K, V)> for HashMap<K, V> {
        fn from_iter<I: IntoIterator<Item = (K, V)>>(entries: I) -> Self {
            Self(entries.into_iter().collect())
        }
    }

    impl<'a, K: Ord, V> IntoIterator for &'a HashMap<K, V> {
        type Item = (&'a K, &'a V);
        type IntoIter = IntoIter<(&'a K, &'a V)>;

        fn into_iter(self) -> Self::IntoIter {
            let mut entries: Vec<_> = self.0.iter().collect();
            entries.sort_by_key(|(key, _)| *key);
            entries.into_iter()
        }
    }
}
