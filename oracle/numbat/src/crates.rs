//! Stand-ins for the crates that the published files name.

pub mod compact_str {
    pub type CompactString = String;

    pub trait ToCompactString {
        fn to_compact_string(&self) -> CompactString;
    }

    impl<T: std::fmt::Display + ?Sized> ToCompactString for T {
        fn to_compact_string(&self) -> CompactString {
            self.to_string()
        }
    }

    /// `CompactString::const_new`, which a `String` does not have.
    pub trait ConstNew {
        fn const_new(text: &'static str) -> Self;
    }

    impl ConstNew for CompactString {
        fn const_new(text: &'static str) -> Self {
            text.to_owned()
        }
    }
}

pub mod indexmap {
    use std::borrow::Borrow;

    /// Entries in the order in which their keys came first.
    #[derive(Clone, Debug, PartialEq, Eq)]
    pub struct IndexMap<K, V>(Vec<(K, V)>);

    /// The place of a key, which is there or may be put there.
    pub struct Entry<'a, K, V> {
        map: &'a mut IndexMap<K, V>,
        index: usize,
        key: K,
    }

    impl<K: PartialEq, V> IndexMap<K, V> {
        pub fn new() -> Self {
            IndexMap(vec![])
        }

        pub fn get_index_of<Q>(&self, key: &Q) -> Option<usize>
        where
            K: Borrow<Q>,
            Q: PartialEq + ?Sized,
        {
            self.0.iter().position(|(k, _)| k.borrow() == key)
        }

        pub fn get_index(&self, index: usize) -> Option<(&K, &V)> {
            self.0.get(index).map(|(key, value)| (key, value))
        }

        pub fn entry(&mut self, key: K) -> Entry<'_, K, V> {
            let found = self.0.iter().position(|(k, _)| *k == key);
            let index = found.unwrap_or(self.0.len());
            Entry {
                map: self,
                index,
                key,
            }
        }

        pub fn insert(&mut self, key: K, value: V) {
            match self.0.iter_mut().find(|(k, _)| *k == key) {
                Some(entry) => entry.1 = value,
                None => self.0.push((key, value)),
            }
        }

        pub fn keys(&self) -> impl Iterator<Item = &K> {
            self.0.iter().map(|(key, _)| key)
        }
    }

    impl<K, V> Entry<'_, K, V> {
        pub fn index(&self) -> usize {
            self.index
        }

        pub fn or_insert_with(self, value: impl FnOnce() -> V) {
            if self.index == self.map.0.len() {
                self.map.0.push((self.key, value()));
            }
        }
    }

    impl<K, V> std::ops::Index<usize> for IndexMap<K, V> {
        type Output = V;

        fn index(&self, index: usize) -> &V {
            &self.0[index].1
        }
    }

    impl<K: PartialEq, V> FromIterator<(K, V)> for IndexMap<K, V> {
        fn from_iter<I: IntoIterator<Item = (K, V)>>(entries: I) -> Self {
            let mut map = IndexMap::new();
            for (key, value) in entries {
                map.insert(key, value);
            }
            map
        }
    }
}

pub mod itertools {
    pub trait Itertools: Iterator + Sized {
        fn join(self, between: &str) -> String
        where
            Self::Item: std::fmt::Display,
        {
            let words: Vec<String> = self.map(|item| item.to_string()).collect();
            words.join(between)
        }

        fn intersperse(self, between: Self::Item) -> std::vec::IntoIter<Self::Item>
        where
            Self::Item: Clone,
        {
            let mut items = vec![];
            for item in self {
                if !items.is_empty() {
                    items.push(between.clone());
                }
                items.push(item);
            }
            items.into_iter()
        }
    }

    impl<I: Iterator> Itertools for I {}
}

/// Dates: no constant is one and no carried opcode makes one.
pub mod jiff {
    #[derive(Clone, Debug, PartialEq)]
    pub struct Zoned;

    pub struct Error;

    pub enum Unit {
        Second,
    }

    impl Zoned {
        pub fn checked_add(&self, _: Span) -> Result<Zoned, Error> {
            Err(Error)
        }

        pub fn checked_sub(&self, _: Span) -> Result<Zoned, Error> {
            Err(Error)
        }

        pub fn since(&self, _: &Zoned) -> Result<Span, Error> {
            Err(Error)
        }

        pub fn with_time_zone(&self, _: tz::TimeZone) -> Zoned {
            Zoned
        }
    }

    impl std::fmt::Display for Zoned {
        fn fmt(&self, _: &mut std::fmt::Formatter<'_>) -> std::fmt::Result {
            Ok(())
        }
    }

    pub struct Span;

    impl Span {
        pub fn new() -> Span {
            Span
        }

        pub fn try_seconds(self, _: i64) -> Result<Span, Error> {
            Err(Error)
        }

        pub fn nanoseconds(self, _: i64) -> Span {
            self
        }

        pub fn total(&self, _: Unit) -> Result<f64, Error> {
            Err(Error)
        }
    }

    pub mod tz {
        pub struct TimeZone;

        impl TimeZone {
            pub fn get(_: &str) -> Result<TimeZone, super::Error> {
                Err(super::Error)
            }
        }
    }
}

pub mod num_traits {
    pub trait ToPrimitive {
        fn to_i64(&self) -> Option<i64>;
    }

    /// Seconds of a duration, of which there are none.
    impl ToPrimitive for f64 {
        fn to_i64(&self) -> Option<i64> {
            None
        }
    }
}

pub mod strfmt {
    use std::collections::HashMap;

    #[allow(dead_code)]
    pub enum FmtError {
        Invalid(String),
        TypeError(String),
        KeyError(String),
    }

    /// Nothing is formatted.
    pub fn strfmt<K, V>(_: &str, _: &HashMap<K, V>) -> Result<String, FmtError> {
        Err(FmtError::Invalid(String::new()))
    }
}
