//! Lists to lend that hold anything, and what they hold after a call.

use cablesalak::{
    chain, check_lent, check_lent_in, check_text_lent, ColumnsMut, ListsMut, Mode, Node, NodeNo, NodesMut, RowsMut,
    TableMut, Verdict, MEMBERS, SCRATCH,
};

/// The lists of a check, the count beside them.
#[derive(Clone, Debug, PartialEq, Eq)]
pub struct Lists {
    pub vars: Vec<u8>,
    pub lows: Vec<u16>,
    pub highs: Vec<u16>,
    pub heads: Vec<u16>,
    pub links: Vec<u16>,
    pub count: usize,
    pub members: Vec<u16>,
    pub struck: Vec<u8>,
    pub scratch: Vec<u16>,
}

impl Lists {
    /// Lists of these lengths, as many marks as members, without a zero place.
    pub fn dirty(size: usize, members: usize, scratch: usize) -> Lists {
        let word = |place: usize| (place as u16).wrapping_mul(40_503) | 1;
        let words = |length| (0..length).map(word).collect::<Vec<u16>>();
        let bytes = |length| (0..length).map(|place| word(place) as u8).collect();
        Lists {
            vars: bytes(size),
            lows: words(size),
            highs: words(size),
            heads: words(2 * size),
            links: words(size),
            count: 9,
            members: words(members),
            struck: bytes(members),
            scratch: words(scratch),
        }
    }

    /// Dirty lists of proper size.
    pub fn of_size(size: usize) -> Lists {
        Lists::dirty(size, MEMBERS, SCRATCH)
    }

    pub fn table(&mut self) -> TableMut<'_> {
        let Lists { vars, lows, highs, heads, links, count, .. } = self;
        TableMut::new(ColumnsMut { vars, lows, highs, heads, links }, count).expect("lists of proper size")
    }

    pub fn check(&mut self, formula: &[u8], proof: &[u8]) -> Verdict {
        let Lists { vars, lows, highs, heads, links, count, members, struck, scratch } = self;
        let mut table = TableMut::new(ColumnsMut { vars, lows, highs, heads, links }, count).expect("proper size");
        check_lent(&mut table, members, struck, scratch, formula, proof)
    }

    pub fn check_in(&mut self, mode: Mode, formula: &[u8], proof: &[u8]) -> Verdict {
        let Lists { vars, lows, highs, heads, links, count, members, struck, scratch } = self;
        let mut table = TableMut::new(ColumnsMut { vars, lows, highs, heads, links }, count).expect("proper size");
        check_lent_in(mode, &mut table, &mut ListsMut { members, struck, scratch }, formula, proof)
    }

    /// The same over a list of rows that holds what the columns hold, and back.
    pub fn check_nodes(&mut self, mode: Mode, formula: &[u8], proof: &[u8]) -> Verdict {
        let Lists { vars, lows, highs, heads, links, count, members, struck, scratch } = self;
        let row = |place: usize| Node::new(vars[place], NodeNo(lows[place]), NodeNo(highs[place]));
        let nodes = &mut (0..vars.len()).map(row).collect::<Vec<_>>();
        let mut table = NodesMut::new(RowsMut { nodes, heads, links }, count).expect("proper size");
        let verdict = table.check(mode, &mut ListsMut { members, struck, scratch }, formula, proof);
        assert_eq!(table.evaluate(NodeNo::ONE, Default::default()), Ok(true));
        for (place, node) in nodes.iter().enumerate() {
            (vars[place], lows[place], highs[place]) = (node.variable, node.low.0, node.high.0);
        }
        verdict
    }

    pub fn check_text(&mut self, formula: &[u8], proof: &[u8]) -> Verdict {
        let Lists { vars, lows, highs, heads, links, count, members, struck, scratch } = self;
        let mut table = TableMut::new(ColumnsMut { vars, lows, highs, heads, links }, count).expect("proper size");
        check_text_lent(&mut table, members, struck, scratch, formula, proof)
    }

    /// The rows of the table from place 2 to its count, as variable, low, high.
    pub fn rows(&self) -> Vec<(u8, u16, u16)> {
        (2..self.count).map(|place| (self.vars[place], self.lows[place], self.highs[place])).collect()
    }

    /// Whether head and links are those of the rows: each chain runs through its nodes from the highest number down to a 0.
    pub fn indexed(&self) -> bool {
        let chain_of = |(variable, low, high)| chain(Node::new(variable, NodeNo(low), NodeNo(high)), self.heads.len());
        let mut below: Vec<Vec<usize>> = vec![Vec::new(); self.heads.len()];
        for (place, row) in self.rows().into_iter().enumerate() {
            below[chain_of(row)].push(place + 2);
        }
        let mut links = vec![0; self.links.len()];
        for nodes in &below {
            for pair in nodes.windows(2) {
                links[pair[1]] = pair[0] as u16;
            }
        }
        let heads = below.iter().map(|nodes| nodes.last().copied().unwrap_or(0) as u16);
        heads.eq(self.heads.iter().copied()) && links == self.links
    }

    /// The first so many marks, a digit each.
    pub fn marks(&self, members: usize) -> String {
        self.struck[..members].iter().map(u8::to_string).collect()
    }

    /// Whether places 0 and 1, the places from the count on, the members and marks past the first `members`, and the scratch
    /// list are zero.
    pub fn zero_above(&self, members: usize) -> bool {
        let outside = |place: &usize| *place < 2 || self.count <= *place;
        let blank = |place: usize| (self.vars[place], self.lows[place], self.highs[place]) == (0, 0, 0);
        let lists = self.members.iter().skip(members).chain(&self.scratch);
        let marks = self.struck.iter().skip(members);
        (0..self.vars.len()).filter(outside).all(blank)
            && lists.into_iter().all(|place| *place == 0)
            && marks.into_iter().all(|mark| *mark == 0)
    }
}
