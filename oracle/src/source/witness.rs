//! The collections that the module asks for by their plain names, and what they tell of it.
//!
//! Each wraps the standard one and passes every call on. Some calls are witnessed besides:
//!
//! * `clear` hands over what the collection held. The spiller clears all its tables before it runs and on request, so one
//!   `clear` after a run gives the post-order, the lists and both live tables (the analysis clears live-in first).
//! * A set of `u32` is the worklist's `need_updates` and nothing else in the module is one. Its `insert` is called once a
//!   push and nowhere else; its `remove` is called by `pop` alone and says true exactly for the entry that `pop` returns.
//!   So inserts are pushes, and removals that say true are visits, in order.

use super::ir::{Block, Inst, Value};
use super::tables::SmallVec;
use std::cell::RefCell;
use std::hash::Hash;
use std::ops::{Deref, DerefMut};

#[derive(Default)]
pub struct Seen {
    pub pushes: u64,
    /// Post-order indices.
    pub visited: std::vec::Vec<u32>,
    pub post_order: std::vec::Vec<Block>,
    /// Every table of live sets handed over, in order.
    pub live_tables: std::vec::Vec<std::vec::Vec<HashSet<Value>>>,
    pub lists: std::vec::Vec<(Inst, std::vec::Vec<Value>)>,
}

thread_local! {
    static SEEN: RefCell<Seen> = RefCell::default();
}

/// Takes what was witnessed since the last call.
pub fn take() -> Seen {
    SEEN.take()
}

fn tell(what: impl FnOnce(&mut Seen)) {
    if cfg!(feature = "witness") {
        SEEN.with_borrow_mut(what);
    }
}

/// What a list or set tells of its elements.
pub trait Element: Sized {
    fn inserted(&self) {}
    fn removed(&self) {}
    fn cleared(_list: &mut std::vec::Vec<Self>) {}
}

impl Element for Value {}

impl Element for SmallVec<[u32; 4]> {}

impl Element for u32 {
    fn inserted(&self) {
        tell(|seen| seen.pushes += 1);
    }

    fn removed(&self) {
        tell(|seen| seen.visited.push(*self));
    }
}

impl Element for Block {
    fn cleared(list: &mut std::vec::Vec<Block>) {
        tell(|seen| seen.post_order = std::mem::take(list));
    }
}

impl Element for HashSet<Value> {
    fn cleared(list: &mut std::vec::Vec<HashSet<Value>>) {
        tell(|seen| seen.live_tables.push(std::mem::take(list)));
    }
}

/// What a map tells of its entries.
pub trait Entry<K>: Sized {
    fn cleared(_map: &mut std::collections::HashMap<K, Self>) {}
}

impl Entry<Value> for super::ir::StackSlot {}

impl Entry<Inst> for SmallVec<[Value; 4]> {
    fn cleared(map: &mut std::collections::HashMap<Inst, Self>) {
        tell(|seen| seen.lists = map.drain().map(|(inst, list)| (inst, list.to_vec())).collect());
    }
}

#[derive(Clone, Debug, PartialEq)]
pub struct Vec<T>(std::vec::Vec<T>);

impl<T: Element> Vec<T> {
    pub fn clear(&mut self) {
        T::cleared(&mut self.0);
        self.0.clear();
    }
}

impl<T> Default for Vec<T> {
    fn default() -> Self {
        Vec(std::vec::Vec::new())
    }
}

impl<T> Deref for Vec<T> {
    type Target = std::vec::Vec<T>;

    fn deref(&self) -> &Self::Target {
        &self.0
    }
}

impl<T> DerefMut for Vec<T> {
    fn deref_mut(&mut self) -> &mut Self::Target {
        &mut self.0
    }
}

#[derive(Clone, Debug)]
pub struct HashSet<T>(std::collections::HashSet<T>);

impl<T: Element + Eq + Hash> HashSet<T> {
    pub fn insert(&mut self, element: T) -> bool {
        element.inserted();
        self.0.insert(element)
    }

    pub fn remove(&mut self, element: &T) -> bool {
        let there = self.0.remove(element);
        if there {
            element.removed();
        }
        there
    }
}

impl<T> Default for HashSet<T> {
    fn default() -> Self {
        HashSet(std::collections::HashSet::new())
    }
}

impl<T: Eq + Hash> PartialEq for HashSet<T> {
    fn eq(&self, other: &Self) -> bool {
        self.0 == other.0
    }
}

impl<T> Deref for HashSet<T> {
    type Target = std::collections::HashSet<T>;

    fn deref(&self) -> &Self::Target {
        &self.0
    }
}

impl<T> DerefMut for HashSet<T> {
    fn deref_mut(&mut self) -> &mut Self::Target {
        &mut self.0
    }
}

pub struct HashMap<K, V>(std::collections::HashMap<K, V>);

impl<K: Eq + Hash, V: Entry<K>> HashMap<K, V> {
    pub fn clear(&mut self) {
        V::cleared(&mut self.0);
        self.0.clear();
    }
}

impl<K, V> Default for HashMap<K, V> {
    fn default() -> Self {
        HashMap(std::collections::HashMap::new())
    }
}

impl<K, V> Deref for HashMap<K, V> {
    type Target = std::collections::HashMap<K, V>;

    fn deref(&self) -> &Self::Target {
        &self.0
    }
}

impl<K, V> DerefMut for HashMap<K, V> {
    fn deref_mut(&mut self) -> &mut Self::Target {
        &mut self.0
    }
}
