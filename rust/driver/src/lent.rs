//! Buffers to lend: exactly as long as asked, between guards that no call may touch.

use crate::command::{Change, Index, Table};
use cablesalak::raw::{Columns, ColumnsMut};

const GUARD: usize = 16;

/// Numbers without a pattern (splitmix64), to fill what a call may find in any state.
pub struct Dirt(pub u64);

impl Dirt {
    pub fn next(&mut self) -> u64 {
        self.0 = self.0.wrapping_add(0x9e37_79b9_7f4a_7c15);
        let mut mixed = self.0;
        mixed = (mixed ^ (mixed >> 30)).wrapping_mul(0xbf58_476d_1ce4_e5b9);
        mixed = (mixed ^ (mixed >> 27)).wrapping_mul(0x94d0_49bb_1331_11eb);
        mixed ^ (mixed >> 31)
    }
}

/// A lent buffer.
#[derive(Clone)]
pub struct Lent<T> {
    all: Vec<T>,
    guard: T,
}

impl<T: Copy + Default + PartialEq> Lent<T> {
    /// A buffer of zeros.
    pub fn zeros(size: usize, guard: T) -> Self {
        let mut all = vec![T::default(); size + 2 * GUARD];
        all[..GUARD].fill(guard);
        all[GUARD + size..].fill(guard);
        Lent { all, guard }
    }

    /// A buffer whose places are made by `fill`.
    pub fn filled(size: usize, guard: T, fill: impl FnMut() -> T) -> Self {
        let mut lent = Self::zeros(size, guard);
        lent.lend().fill_with(fill);
        lent
    }

    /// The same places in a buffer of another size, zeros above them.
    pub fn resized(&self, size: usize) -> Self {
        let mut places = self.places().iter().copied();
        Self::filled(size, self.guard, || places.next().unwrap_or_default())
    }

    pub fn lend(&mut self) -> &mut [T] {
        let end = self.all.len() - GUARD;
        &mut self.all[GUARD..end]
    }

    pub fn places(&self) -> &[T] {
        &self.all[GUARD..self.all.len() - GUARD]
    }

    /// Whether nothing was written outside the lent places.
    pub fn guarded(&self) -> bool {
        let outside = self.all[..GUARD].iter().chain(&self.all[self.all.len() - GUARD..]);
        outside.into_iter().all(|place| *place == self.guard)
    }

    /// Whether the places from `start` on are zero.
    pub fn zero_from(&self, start: usize) -> bool {
        self.places().iter().skip(start).all(|place| *place == T::default())
    }
}

/// The lists of a lent table: three columns and the index.
#[derive(Clone)]
pub struct Lists {
    pub vars: Lent<u8>,
    pub lows: Lent<u16>,
    pub highs: Lent<u16>,
    pub heads: Lent<u16>,
    pub links: Lent<u16>,
}

impl Lists {
    /// A table with these nodes from place 0 on, zeros above, and its right index, changed as asked.
    pub fn holding(table: &Table) -> Self {
        let (size, asked) = (table.size, &table.index);
        let mut lists = Lists::filled(size, asked, || 0);
        for (place, node) in table.nodes.iter().take(size).enumerate() {
            lists.vars.lend()[place] = node.0;
            lists.lows.lend()[place] = node.1;
            lists.highs.lend()[place] = node.2;
        }
        let (heads, links) = lists.right_index(table.count);
        lists.heads.lend().iter_mut().zip(heads).for_each(|(place, right)| *place = right);
        lists.links.lend().iter_mut().zip(links).for_each(|(place, right)| *place = right);
        for change in &asked.changes {
            let (place, value) = match *change {
                Change::Head(at, value) => (lists.heads.lend().get_mut(at), value),
                Change::Link(at, value) => (lists.links.lend().get_mut(at), value),
            };
            place.into_iter().for_each(|place| *place = value);
        }
        lists
    }

    /// A table whose places hold anything, its index too.
    pub fn dirty(size: usize, asked: &Index, dirt: &mut Dirt) -> Self {
        Lists::filled(size, asked, || dirt.next() as u16)
    }

    fn filled(size: usize, asked: &Index, mut fill: impl FnMut() -> u16) -> Self {
        let (heads, links) = (asked.heads.unwrap_or(2 * size), asked.links.unwrap_or(size));
        Lists {
            vars: Lent::filled(size, 0xa5, || fill() as u8),
            lows: Lent::filled(size, 0xa5a5, &mut fill),
            highs: Lent::filled(size, 0x5a5a, &mut fill),
            heads: Lent::filled(heads, 0xa55a, &mut fill),
            links: Lent::filled(links, 0x5aa5, &mut fill),
        }
    }

    /// To lend for a call that may write.
    pub fn lend(&mut self) -> ColumnsMut<'_> {
        let Lists { vars, lows, highs, heads, links } = self;
        let (vars, lows, highs) = (vars.lend(), lows.lend(), highs.lend());
        ColumnsMut { vars, lows, highs, heads: heads.lend(), links: links.lend() }
    }

    /// To lend for a call that only reads.
    pub fn places(&self) -> Columns<'_> {
        let Lists { vars, lows, highs, heads, links } = self;
        let (vars, lows, highs) = (vars.places(), lows.places(), highs.places());
        Columns { vars, lows, highs, heads: heads.places(), links: links.places() }
    }

    pub fn size(&self) -> usize {
        self.vars.places().len()
    }

    pub fn node(&self, place: usize) -> (u8, u16, u16) {
        (self.vars.places()[place], self.lows.places()[place], self.highs.places()[place])
    }

    /// Heads and links as document 02 has them for the nodes below the count: a chain's head is its node of highest number, and a
    /// node's link the highest lower one of its chain; all others are 0.
    pub fn right_index(&self, count: usize) -> (Vec<u16>, Vec<u16>) {
        let (mut heads, mut links) = (vec![0u16; 2 * self.size()], vec![0u16; self.size()]);
        for (place, link) in links.iter_mut().enumerate().take(count).skip(2) {
            let (variable, low, high) = self.node(place);
            let sum = u64::from(variable) + u64::from(low) * 12_582_917 + u64::from(high) * 4_256_249;
            let chain = (sum % (1 << 32)) as usize % heads.len();
            *link = heads[chain];
            heads[chain] = place as u16;
        }
        (heads, links)
    }

    /// Whether the index is right for the nodes below the count.
    pub fn indexed(&self, count: usize) -> bool {
        let (heads, links) = self.right_index(count);
        self.heads.places() == heads && self.links.places() == links
    }

    /// Whether all lists hold the same.
    pub fn same(&self, other: &Lists) -> bool {
        let (left, right) = (self.places(), other.places());
        left.vars == right.vars && (left.lows, left.highs) == (right.lows, right.highs) && self.same_index(other)
    }

    pub fn same_index(&self, other: &Lists) -> bool {
        self.heads.places() == other.heads.places() && self.links.places() == other.links.places()
    }

    pub fn guarded(&self) -> bool {
        let index = self.heads.guarded() && self.links.guarded();
        self.vars.guarded() && self.lows.guarded() && self.highs.guarded() && index
    }

    /// Whether the columns are zero from a place on.
    pub fn zero_from(&self, start: usize) -> bool {
        self.vars.zero_from(start) && self.lows.zero_from(start) && self.highs.zero_from(start)
    }
}
