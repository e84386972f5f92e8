//! Stand-in for dense_map.rs: a table is a slice with a key type.
use core::marker::PhantomData;
use core::ops::Index;

#[derive(Debug, PartialEq, Eq)]
pub struct TinyMapRef<'a, K, V> {
    values: &'a [V],
    key: PhantomData<fn() -> K>,
}

impl<K, V> Clone for TinyMapRef<'_, K, V> {
    fn clone(&self) -> Self {
        *self
    }
}

impl<K, V> Copy for TinyMapRef<'_, K, V> {}

impl<'a, K, V> TinyMapRef<'a, K, V> {
    pub const fn new(values: &'a [V]) -> Self {
        Self { values, key: PhantomData }
    }

    pub const fn len(&self) -> usize {
        self.values.len()
    }

    pub const fn as_slice(&self) -> &'a [V] {
        self.values
    }
}

impl<'a, K: crate::Key, V> TinyMapRef<'a, K, V> {
    pub fn get(&self, key: K) -> Option<&'a V> {
        self.values.get(key.index())
    }

    pub fn values(&self) -> core::slice::Iter<'a, V> {
        self.values.iter()
    }

    pub fn iter(&self) -> impl Iterator<Item = (K, &'a V)> {
        self.values.iter().enumerate().map(|(index, value)| (K::from(index), value))
    }
}

impl<K: crate::Key, V> Index<K> for TinyMapRef<'_, K, V> {
    type Output = V;

    fn index(&self, key: K) -> &V {
        &self.values[key.index()]
    }
}

pub struct SealedTinyMap;
pub struct TinyMapBuilder;
pub struct TinyMapMut;
pub struct TinyMapSpanMut;
pub struct TinyMapSpanRef;
