//! Lists whose copies share their items.

use std::fmt;
use std::ops::Deref;
use std::sync::Arc;

/// A list of identifiers or ranges. It takes 8 bytes, and its copies share the items until you change one of them.
#[derive(Clone, PartialEq, Eq, Hash)]
pub struct CowVec<T>(Option<Arc<Vec<T>>>); // None if it is empty

impl<T> CowVec<T> {
    /// An empty list.
    pub const fn new() -> CowVec<T> {
        CowVec(None)
    }

    /// Appends an item.
    pub fn push(&mut self, item: T)
    where
        T: Clone,
    {
        Arc::make_mut(self.0.get_or_insert_with(Arc::default)).push(item);
    }
}

impl<T> Default for CowVec<T> {
    fn default() -> CowVec<T> {
        CowVec::new()
    }
}

impl<T> Deref for CowVec<T> {
    type Target = [T];

    fn deref(&self) -> &[T] {
        self.0.as_deref().map_or(&[], Vec::as_slice)
    }
}

impl<T> From<Vec<T>> for CowVec<T> {
    fn from(items: Vec<T>) -> CowVec<T> {
        CowVec((!items.is_empty()).then(|| Arc::new(items)))
    }
}

impl<T, const N: usize> From<[T; N]> for CowVec<T> {
    fn from(items: [T; N]) -> CowVec<T> {
        Vec::from(items).into()
    }
}

impl<T> FromIterator<T> for CowVec<T> {
    fn from_iter<I: IntoIterator<Item = T>>(items: I) -> CowVec<T> {
        Vec::from_iter(items).into()
    }
}

impl<T: Clone> IntoIterator for CowVec<T> {
    type Item = T;
    type IntoIter = std::vec::IntoIter<T>;

    fn into_iter(self) -> Self::IntoIter {
        self.0.map_or_else(Vec::new, Arc::unwrap_or_clone).into_iter()
    }
}

impl<'a, T> IntoIterator for &'a CowVec<T> {
    type Item = &'a T;
    type IntoIter = std::slice::Iter<'a, T>;

    fn into_iter(self) -> Self::IntoIter {
        self.iter()
    }
}

impl<T: fmt::Debug> fmt::Debug for CowVec<T> {
    fn fmt(&self, f: &mut fmt::Formatter<'_>) -> fmt::Result {
        fmt::Debug::fmt(&**self, f)
    }
}
