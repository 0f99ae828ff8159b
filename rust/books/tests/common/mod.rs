//! Lists for the calls over slices, which a test may change between two calls.
#![allow(dead_code)]

use cablesalak_books::raw::{self, BookMut, Booked, Kept, Opening, TableMut};
use cablesalak_books::{MEMBERS, SCRATCH};

/// Case A of document 01.
pub const A: &[u8] = b"p cnf 2 4\n1 2 0\n-1 2 0\n1 -2 0\n-1 -2 0\n";
/// The line "2".
pub const TWO: &[u8] = b"\x4E\x02\0\0\x01\0\x52\x02\0";
/// The line 0.
pub const ZERO: &[u8] = b"\x52\0\0";
pub const END: &[u8] = b"\x45";

#[derive(Clone, Debug, PartialEq, Eq)]
pub struct Held {
    pub own: Vec<u16>,
    pub members: Vec<u16>,
    pub struck: Vec<u8>,
    pub kept: Kept,
}

#[derive(Clone, Debug, PartialEq, Eq)]
pub struct Lists {
    pub vars: Vec<u8>,
    pub lows: Vec<u16>,
    pub highs: Vec<u16>,
    pub heads: Vec<u16>,
    pub links: Vec<u16>,
    pub scratch: Vec<u16>,
    pub count: usize,
    pub held: [Held; 2],
}

impl Lists {
    /// Lists of a table with so many places, which hold anything.
    pub fn dirty(places: usize) -> Lists {
        let kept = Kept {
            share: 3,
            stage: 7,
            number: 9,
            place: 11,
            variables: 200,
            clauses: 13,
            lines: 17,
            rounds: 19,
            charge: 23,
            peak: 29,
            refuted: 255,
        };
        let held = Held { own: vec![3; places], members: vec![5; MEMBERS], struck: vec![7; MEMBERS], kept };
        let column = || vec![9; places];
        Lists {
            vars: vec![11; places],
            lows: column(),
            highs: column(),
            heads: vec![13; 2 * places],
            links: column(),
            scratch: vec![15; SCRATCH],
            count: 99,
            held: [held.clone(), held],
        }
    }

    /// Opened for two books; 35 is given.
    pub fn opened(places: usize, shares: [usize; 2]) -> Lists {
        let mut lists = Lists::dirty(places);
        assert_eq!(lists.open(shares).number, 35);
        lists
    }

    pub fn open(&mut self, shares: [usize; 2]) -> Opening {
        let Lists { vars, lows, highs, heads, links, scratch, count, held } = self;
        let [first, second] = held;
        let kept = [first.kept, second.kept];
        let mut table = TableMut { vars, lows, highs, heads, links };
        let mut books = [&mut *first, &mut *second].map(|held| BookMut {
            own: &mut held.own,
            members: &mut held.members,
            struck: &mut held.struck,
        });
        let said = raw::open(&mut table, books.each_mut(), scratch, *count, kept, shares);
        (*count, first.kept, second.kept) = (said.count, said.first, said.second);
        said
    }

    pub fn book(&mut self, which: usize, bytes: &[u8]) -> Booked {
        let Lists { vars, lows, highs, heads, links, scratch, count, held } = self;
        let Held { own, members, struck, kept } = &mut held[which];
        let mut table = TableMut { vars, lows, highs, heads, links };
        let said = raw::book(&mut table, &mut BookMut { own, members, struck }, scratch, *count, *kept, bytes);
        (*count, *kept) = (said.count, said.book);
        said
    }

    /// The five numbers of a call.
    pub fn says(&mut self, which: usize, bytes: &[u8]) -> [u64; 5] {
        let said = self.book(which, bytes);
        [said.number.into(), said.place as u64, said.lines as u64, said.rounds, said.peak as u64]
    }

    /// Makes the index anew, of the nodes below the count.
    pub fn index(&mut self) {
        self.heads.fill(0);
        self.links.fill(0);
        for place in 2..self.count {
            let (low, high) = (u32::from(self.lows[place]), u32::from(self.highs[place]));
            let key = u32::from(self.vars[place])
                .wrapping_add(low.wrapping_mul(12_582_917))
                .wrapping_add(high.wrapping_mul(4_256_249));
            let chain = key as usize % self.heads.len();
            self.links[place] = self.heads[chain];
            self.heads[chain] = place as u16;
        }
    }

    /// A node more in the table.
    pub fn push(&mut self, variable: u8, low: u16, high: u16) {
        (self.vars[self.count], self.lows[self.count], self.highs[self.count]) = (variable, low, high);
        self.count += 1;
        self.index();
    }
}
