//! A memory of the library's, held twice: by `Heaps`, which owns it and whose calls make no test; and
//! in buffers that are lent to the calls that test it first. Every call is put to both.

use std::fmt::Debug;

use zincpapaya::{Buffers, Capacity, Error, Heaps, Layout, Lengths, Lent, Usage};

use crate::ours::{pool_fault, state, took_the_lowest, Reply};

pub struct Both {
    pub owned: Heaps,
    host: Host,
}

/// Four buffers, to lend.
struct Host {
    bytes: Vec<u8>,
    keys: Vec<u64>,
    order: Vec<u32>,
    words: Vec<u64>,
}

/// Puts a call to both memories: what they answered, if it is the same.
macro_rules! on_both {
    ($both:expr => $call:ident($($arg:expr),* $(,)?)) => {
        $crate::both::same($both.owned.$call($($arg),*), $both.lend().$call($($arg),*))
    };
}
pub(crate) use on_both;

/// What both memories answered, if it is the same.
pub fn same<T>(owned: Result<T, Error>, lent: Result<T, Error>) -> Result<T, Reply>
where
    T: PartialEq + Debug,
{
    if owned != lent {
        let what = format!("the owned memory gives {owned:?}, and the lent one {lent:?}");
        return Err(Reply::Wrong(what));
    }
    owned.map_err(Reply::from)
}

impl Host {
    fn open(layout: Layout, capacity: Capacity, calldata: &[u8]) -> Result<Self, Error> {
        // With counts out of bounds there are no lengths: the opening is refused for the counts.
        let Lengths { bytes, keys, order, words } = capacity.lengths().unwrap_or_default();
        // Any contents will do.
        let (bytes, keys) = (vec![7; bytes], vec![7; keys]);
        let (order, words) = (vec![7; order], vec![7; words]);
        let mut host = Self { bytes, keys, order, words };
        host.lend().reopen(layout, capacity, calldata)?;
        Ok(host)
    }

    fn lend(&mut self) -> Lent<'_> {
        Lent::of(&mut self.bytes, &mut self.keys, &mut self.order, &mut self.words)
    }

    fn buffers(&self) -> Buffers<'_> {
        let Self { bytes, keys, order, words } = self;
        Buffers { bytes, keys, order, words }
    }
}

impl Both {
    pub fn open(layout: Layout, capacity: Capacity, calldata: &[u8]) -> Result<Self, Reply> {
        let owned = Heaps::open(layout, capacity, calldata);
        let lent = Host::open(layout, capacity, calldata);
        match (owned, lent) {
            (Ok(owned), Ok(host)) => Ok(Self { owned, host }),
            (owned, lent) => {
                let refused = same(owned.map(|_| ()), lent.map(|_| ()));
                Err(refused.expect_err("one of them is refused"))
            }
        }
    }

    /// Opens both afresh, with the capacity that they have.
    pub fn reopen(&mut self, layout: Layout, calldata: &[u8]) -> Result<(), Reply> {
        let capacity = self.owned.capacity();
        let lent = self.lend().reopen(layout, capacity, calldata);
        same(self.owned.reopen(layout, calldata), lent)
    }

    pub fn lend(&mut self) -> Lent<'_> {
        self.host.lend()
    }

    /// Damages the lent memory: the count of its held chunks.
    pub fn damage(&mut self) {
        self.host.words[9] += 1;
    }

    pub fn equal(&self, other: &Self) -> Result<bool, Reply> {
        let lent = self.host.buffers().equal(other.host.buffers());
        same(self.owned.equal(&other.owned), lent)
    }

    /// Whether every number of all buffers is what it is in `other`.
    pub fn has_the_numbers_of(&self, other: &Self) -> bool {
        self.owned.buffers() == other.owned.buffers() && self.host.buffers() == other.host.buffers()
    }

    /// Whether all slots that were taken since `before` were the lowest of their pools.
    pub fn took_the_lowest(&self, before: &Self) -> bool {
        let capacity = self.owned.capacity();
        took_the_lowest(before.owned.buffers(), self.owned.buffers(), capacity)
            && took_the_lowest(before.host.buffers(), self.host.buffers(), capacity)
    }

    /// What is in use, and the dynamic length. Both pools are counted as well.
    pub fn counts(&mut self) -> Result<(Usage, u64), Reply> {
        let usage = same(Ok(self.owned.usage()), self.lend().usage())?;
        let capacity = self.owned.capacity();
        let faults = [self.owned.buffers(), self.host.buffers()]
            .map(|buffers| pool_fault(buffers, capacity));
        if let Some(fault) = faults.into_iter().flatten().next() {
            return Err(Reply::Wrong(fault));
        }
        Ok((usage, on_both!(self => dynamic_len())?))
    }

    /// That both are well formed and hold the same: pages, chunks with each byte, and journals.
    pub fn hold_the_same(&mut self) -> Result<(), Reply> {
        on_both!(self => check())?;
        let (owned, lent) = (self.owned.buffers(), self.host.buffers());
        let equal = lent.equal(owned);
        if equal != Ok(true) {
            let what = format!("the comparison of the lent memory with the owned one: {equal:?}");
            return Err(Reply::Wrong(what));
        }
        let capacity = self.owned.capacity();
        same(Ok(state(owned, capacity)), Ok(state(lent, capacity)))?;
        Ok(())
    }
}

impl Clone for Both {
    fn clone(&self) -> Self {
        let Host { bytes, keys, order, words } = &self.host;
        let (bytes, keys) = (bytes.clone(), keys.clone());
        let (order, words) = (order.clone(), words.clone());
        Self { owned: self.owned.clone(), host: Host { bytes, keys, order, words } }
    }

    fn clone_from(&mut self, source: &Self) {
        self.owned.clone_from(&source.owned);
        self.host.bytes.clone_from(&source.host.bytes);
        self.host.keys.clone_from(&source.host.keys);
        self.host.order.clone_from(&source.host.order);
        self.host.words.clone_from(&source.host.words);
    }
}
