//! Two books on one table: `open`, `book` and `dump`; and the driver's own `kept` and `altered`.

use crate::altered::Change;
use crate::answer::{digits, expect, numbers, shown, Answered};
use crate::command::{bytes, number, places, Index};
use crate::lent::{Dirt, Lent, Lists};
use cablesalak_books::raw::{self, BookMut, Booked, Kept, TableMut};
use cablesalak_books::{ACCEPTED, MEMBERS, PLACES, SCRATCH};

/// The sizes of the lent lists and the shares, of the first book and of the second.
pub struct Opening {
    size: usize,
    members: [usize; 2],
    scratch: usize,
    shares: [usize; 2],
}

pub enum Asked {
    Open(Opening),
    Book(usize, Vec<u8>),
    /// The call is lent what is kept with these changes, and what it leaves is forgotten.
    Altered(usize, Vec<u8>, Vec<Change>),
    Dump,
    Kept(usize),
}

/// The command in a line, if it is one of these.
pub fn read(line: &str) -> Option<Asked> {
    let words: Vec<&str> = line.split(' ').collect();
    Some(match words[..] {
        ["open", size, first, second, scratch, share, other] => Asked::Open(Opening {
            size: places(size)?,
            members: [places(first)?, places(second)?],
            scratch: places(scratch)?,
            shares: [number(share)?, number(other)?],
        }),
        ["book", which, text] => Asked::Book(self::which(which)?, bytes(text)?),
        ["altered", which, text, ref changes @ ..] => Asked::Altered(
            self::which(which)?,
            bytes(text)?,
            changes.iter().map(|word| Change::read(word)).collect::<Option<_>>()?,
        ),
        ["dump"] => Asked::Dump,
        ["kept", which] => Asked::Kept(self::which(which)?),
        _ => return None,
    })
}

fn which(word: &str) -> Option<usize> {
    ["A", "B"].iter().position(|name| *name == word)
}

/// What is lent for one book.
#[derive(Clone)]
pub struct Held {
    pub own: Lent<u16>,
    pub members: Lent<u16>,
    pub struck: Lent<u8>,
    pub kept: Kept,
}

impl Held {
    fn member_count(&self) -> usize {
        let places = self.members.places().len().min(self.struck.places().len());
        self.kept.clauses.saturating_add(self.kept.lines).min(places)
    }

    fn same(&self, other: &Held) -> bool {
        let lists = [&self.own, &self.members].map(Lent::places) == [&other.own, &other.members].map(Lent::places);
        lists && self.struck.places() == other.struck.places() && self.kept == other.kept
    }

    fn guarded(&self) -> bool {
        self.own.guarded() && self.members.guarded() && self.struck.guarded()
    }

    fn zero(&self) -> bool {
        self.own.zero_from(0) && self.members.zero_from(0) && self.struck.zero_from(0)
    }

    fn lend(&mut self) -> BookMut<'_> {
        BookMut { own: self.own.lend(), members: self.members.lend(), struck: self.struck.lend() }
    }
}

/// All that is lent for two books.
#[derive(Clone)]
pub struct Opened {
    pub table: Lists,
    pub count: usize,
    pub held: [Held; 2],
    pub scratch: Lent<u16>,
}

impl Opened {
    /// Lists that hold anything, of these sizes.
    fn dirty(asked: &Opening, dirt: &mut Dirt) -> Opened {
        let mut held = |members: usize| Held {
            own: Lent::filled(asked.size, 0xa5a5, || dirt.next() as u16),
            members: Lent::filled(members, 0x5a5a, || dirt.next() as u16),
            struck: Lent::filled(members, 0xa5, || dirt.next() as u8),
            kept: any_kept(dirt),
        };
        let held = asked.members.map(&mut held);
        Opened {
            table: Lists::dirty(asked.size, &Index::default(), dirt),
            count: dirt.next() as usize,
            held,
            scratch: Lent::filled(asked.scratch, 0x5aa5, || dirt.next() as u16),
        }
    }

    fn same(&self, other: &Opened) -> bool {
        let held = self.held.iter().zip(&other.held).all(|(held, other)| held.same(other));
        let scratch = self.scratch.places() == other.scratch.places();
        held && scratch && self.table.same(&other.table) && self.count == other.count
    }

    fn guarded(&self) -> bool {
        self.table.guarded() && self.scratch.guarded() && self.held.iter().all(Held::guarded)
    }

    /// Whether the lent lists of a book, and those that both share, have proper sizes.
    fn fits(&self, which: usize) -> bool {
        let (size, held) = (self.table.size(), &self.held[which]);
        let columns =
            [&self.table.lows, &self.table.highs, &self.table.links, &held.own].map(|list| list.places().len());
        let members = held.members.places().len();
        PLACES.contains(&size)
            && columns == [size; 4]
            && self.table.heads.places().len() == 2 * size
            && members >= MEMBERS
            && held.struck.places().len() == members
            && self.scratch.places().len() >= SCRATCH
    }

    fn dump(&self) -> String {
        let held = self.held.each_ref().map(|held| {
            let kept = held.member_count();
            format!("{} | {}", numbers(&held.members.places()[..kept]), digits(&held.struck.places()[..kept]))
        });
        format!("{} | {} | {}", self.count, shown(&self.table), held.join(" | "))
    }

    /// What is kept for a book, and its own nodes.
    fn shown(&self, which: usize) -> String {
        let Held { own, kept, .. } = &self.held[which];
        let Kept { share, stage, number, place, variables, clauses, lines, rounds, charge, peak, refuted } = kept;
        let own = numbers(&own.places()[..(*charge).min(own.places().len())]);
        format!(
            "{share} {stage} {number} {place} {variables} {clauses} {lines} {rounds} {charge} {peak} {refuted} | {own}"
        )
    }

    /// A call of a book, and every lent place after it. Where the lists are as an opening or a call left them the scratch list may hold
    /// anything, and every second time it does.
    fn call(&mut self, which: usize, bytes: &[u8], dirt: &mut Dirt) -> Answered {
        let seed = dirt.next();
        if seed & 1 == 0 {
            let mut dirt = Dirt(seed);
            self.scratch.lend().fill_with(|| dirt.next() as u16);
        }
        let before = self.clone();
        let said = {
            let Opened { table, count, held, scratch } = self;
            let held = &mut held[which];
            let (kept, lists) = (held.kept, table.lend());
            let mut table = TableMut {
                vars: lists.vars,
                lows: lists.lows,
                highs: lists.highs,
                heads: lists.heads,
                links: lists.links,
            };
            raw::book(&mut table, &mut held.lend(), scratch.lend(), *count, kept, bytes)
        };
        (self.count, self.held[which].kept) = (said.count, said.book);
        expect(self.guarded(), "written outside the lists")?;
        expect(before.fits(which) == (said.number != 7), "7 with lists of proper size, or another number without")?;
        let zeros = (said.place, said.lines, said.rounds, said.peak) == (0, 0, 0, 0);
        if matches!(said.number, 7 | 26) && (zeros || before.held[which].kept.stage < 2) {
            expect(zeros, "7 or 26 with a place, lines, rounds or a peak")?;
            expect(self.same(&before), "7 or 26 changed what is lent or kept")?;
        } else {
            left(self, &before, which, &said)?;
        }
        let Booked { number, place, lines, rounds, peak, .. } = said;
        Ok(format!("{number} {place} {lines} {rounds} {peak}"))
    }
}

/// Anything that may be kept for a book.
fn any_kept(dirt: &mut Dirt) -> Kept {
    let mut size = || dirt.next() as usize;
    let (share, place, clauses, lines, charge, peak) = (size(), size(), size(), size(), size(), size());
    let (stage, number, variables, rounds, refuted) =
        (size() as u8, size() as u8, size() as u8, size() as u64, size() as u8);
    Kept { share, stage, number, place, variables, clauses, lines, rounds, charge, peak, refuted }
}

/// What a call leaves that is neither 7 nor 26.
fn left(now: &Opened, before: &Opened, which: usize, said: &Booked) -> Result<(), String> {
    let (held, was) = (&now.held[which], &before.held[which]);
    let (kept, bound) = (&held.kept, was.kept.stage > 1);
    let same = (said.lines, said.rounds, said.peak) == (kept.lines, kept.rounds, kept.peak);
    expect(same, "lines, rounds or peak are not those that are kept")?;
    expect(kept.share == was.kept.share, "another share is kept")?;
    expect(now.held[1 - which].same(&before.held[1 - which]), "the other book's lists or numbers are changed")?;
    if bound {
        expect((said.number, said.place) == (was.kept.number, was.kept.place), "a bound book repeats another answer")?;
        return expect(now.same(before), "a bound book's call changed something");
    }
    expect(now.scratch.zero_from(0), "the scratch list is not zero")?;
    let members = held.member_count();
    expect(held.members.zero_from(members), "a place past the members is not zero")?;
    expect(held.struck.zero_from(members), "a mark past the members is not zero")?;
    expect(held.struck.places().iter().all(|mark| *mark <= 1), "a mark is neither 0 nor 1")?;
    expect(held.own.zero_from(kept.charge), "a place past the own nodes is not zero")?;
    expect(kept.charge <= kept.share && kept.peak <= kept.share, "the charge or the peak passes the share")?;
    if said.number == ACCEPTED {
        let free = (kept.stage, kept.number, kept.place) == (1, was.kept.number, was.kept.place);
        expect(free, "an accepted call binds the book")?;
        return accepted(now, before, which);
    }
    expect((kept.stage, kept.number, kept.place) == (2, said.number, said.place), "a refusal does not bind the book")?;
    expect(now.table.same(&before.table) && now.count == before.count, "a refused call changed the table")?;
    if was.kept.stage == 0 {
        return expect(held.zero() && members == 0, "a refused formula leaves members");
    }
    expect(held.members.places()[..members] == was.members.places()[..members], "a refused call changed the members")?;
    let charge = kept.charge;
    expect(held.own.places()[..charge] == was.own.places()[..charge], "a refused call changed the own nodes")
}

/// The table after an accepted call: in good order as far as a look at it tells, what was there is there, the own nodes are those of the
/// members and their children's come before a node.
fn accepted(now: &Opened, before: &Opened, which: usize) -> Result<(), String> {
    let (table, held) = (&now.table, &now.held[which]);
    expect(before.count <= now.count && now.count <= table.size(), "the count is out of range")?;
    expect(held.kept.charge <= held.kept.peak, "the charge passes the peak")?;
    expect((0..before.count).all(|place| table.node(place) == before.table.node(place)), "a node was changed")?;
    expect(table.zero_from(now.count), "a place past the count is not zero")?;
    expect(table.indexed(now.count), "the index is not that of the nodes")?;
    let mut own = vec![false; table.size()];
    (own[0], own[1]) = (true, true);
    for number in &held.own.places()[..held.kept.charge] {
        let place = usize::from(*number);
        expect(2 <= place && place < now.count && !own[place], "an own node is none of the table, or twice there")?;
        let (_, low, high) = table.node(place);
        expect(own[usize::from(low)] && own[usize::from(high)], "an own node comes before its children")?;
        own[place] = true;
    }
    let members = &held.members.places()[..held.member_count()];
    expect(members.iter().all(|member| own[usize::from(*member)]), "a member is none of the own nodes")
}

/// The answer, or what the library broke.
pub fn answer(asked: &Asked, opened: &mut Option<Opened>, dirt: &mut Dirt) -> String {
    let answered = match asked {
        Asked::Open(asked) => open(asked, opened, dirt),
        Asked::Book(which, bytes) => match opened {
            Some(opened) => opened.call(*which, bytes, dirt),
            None => nothing().call(*which, bytes, dirt),
        },
        Asked::Altered(which, bytes, changes) => altered(opened, *which, bytes, changes, dirt),
        Asked::Dump => Ok(opened.as_ref().map_or("2 | - | - | - | - | -".into(), Opened::dump)),
        Asked::Kept(which) => Ok(opened.as_ref().unwrap_or(&nothing()).shown(*which)),
    };
    answered.unwrap_or_else(|what| what)
}

/// Lists without a place.
fn nothing() -> Opened {
    let held = || Held {
        own: Lent::zeros(0, 1),
        members: Lent::zeros(0, 1),
        struck: Lent::zeros(0, 1),
        kept: Kept::default(),
    };
    let table = Lists::dirty(0, &Index::default(), &mut Dirt(0));
    Opened { table, count: 2, held: [held(), held()], scratch: Lent::zeros(0, 1) }
}

/// A refused opening leaves what was there: here also the books that are open.
fn open(asked: &Opening, opened: &mut Option<Opened>, dirt: &mut Dirt) -> Answered {
    let mut lent = Opened::dirty(asked, dirt);
    let before = lent.clone();
    let said = {
        let Opened { table, count, held, scratch } = &mut lent;
        let kept = [held[0].kept, held[1].kept];
        let [first, second] = held;
        let lists = table.lend();
        let mut table =
            TableMut { vars: lists.vars, lows: lists.lows, highs: lists.highs, heads: lists.heads, links: lists.links };
        let books = [&mut first.lend(), &mut second.lend()];
        raw::open(&mut table, books, scratch.lend(), *count, kept, asked.shares)
    };
    (lent.count, lent.held[0].kept, lent.held[1].kept) = (said.count, said.first, said.second);
    expect(lent.guarded(), "written outside the lists")?;
    let fits = before.fits(0) && before.fits(1);
    expect(fits == (said.number != 7), "7 with lists of proper size, or another number without")?;
    if said.number != ACCEPTED {
        expect(lent.same(&before), "a refused opening changed what is lent or kept")?;
        return Ok(format!("{} 0 0 0 0", said.number));
    }
    let kept = asked.shares.map(|share| Kept { share, ..Kept::default() });
    expect([lent.held[0].kept, lent.held[1].kept] == kept, "something is kept of a book that is just opened")?;
    let zero = lent.held.iter().all(Held::zero) && lent.scratch.zero_from(0) && lent.table.zero_from(0);
    expect(zero && lent.table.indexed(2) && lent.count == 2, "the opening leaves something")?;
    *opened = Some(lent);
    Ok(format!("{} 0 0 0 0", said.number))
}

/// What a call answers that is lent what is kept with changes, and, where the sizes are proper, what it leaves; the books that are open stay
/// as they are.
fn altered(opened: &Option<Opened>, which: usize, bytes: &[u8], changes: &[Change], dirt: &mut Dirt) -> Answered {
    let mut lent = opened.clone().unwrap_or_else(nothing);
    for change in changes {
        change.apply(&mut lent, which);
    }
    let said = lent.call(which, bytes, dirt)?;
    if !lent.fits(which) {
        return Ok(said);
    }
    Ok(format!("{said} | {} | {}", lent.dump(), lent.shown(which)))
}
