//! The proof, word for word, on functions.

use super::*;

#[derive(Clone, Copy, PartialEq)]
pub(super) enum Rule {
    Rup,
    Pr,
    Path,
}

#[derive(Clone, Copy)]
pub(super) enum Step {
    Node(u32, u16, u16),
    Witness(u32, bool),
    Line(u16, Rule),
    Strike(u16),
    AtLeast(u64, u8),
    Parity(u64, u8),
    End,
}

pub(super) fn bytes(step: Step) -> Vec<u8> {
    let two = |entry: u16| entry.to_le_bytes();
    match step {
        Step::Node(v, l, h) => vec![0x4E, v as u8, two(l)[0], two(l)[1], two(h)[0], two(h)[1]],
        Step::Witness(v, value) => vec![if value { 0x54 } else { 0x46 }, v as u8],
        Step::Line(root, rule) => {
            let kind = match rule {
                Rule::Rup => 0x52,
                Rule::Pr => 0x50,
                Rule::Path => 0x51,
            };
            vec![kind, two(root)[0], two(root)[1]]
        }
        Step::Strike(member) => vec![0x44, two(member)[0], two(member)[1]],
        Step::AtLeast(set, byte) => [&[0x4B], &set.to_le_bytes()[..], &[byte]].concat(),
        Step::Parity(set, byte) => [&[0x58], &set.to_le_bytes()[..], &[byte]].concat(),
        Step::End => vec![0x45],
    }
}

/// The paths of a function's diagram to 0, one after the other: the root is the first variable that matters.
pub(super) fn paths_to_0(f: Function) -> Vec<Literals> {
    if f == 0 || f == ALL {
        return if f == 0 { vec![Literals::default()] } else { Vec::new() };
    }
    let v = Model::root(f);
    let (no, yes) = (Literals { yes: 0, no: bit(v) }, Literals { yes: bit(v), no: 0 });
    let side = |by: Literals| {
        let join = move |path: Literals| Literals { yes: path.yes | by.yes, no: path.no | by.no };
        paths_to_0(under(f, by)).into_iter().map(join)
    };
    side(no).chain(side(yes)).collect()
}

/// The proof's part of document 01, word for word, on functions, with the records of document 02.
pub(super) struct Model {
    /// The consequence profile.
    pub(super) cons: bool,
    variables: u32,
    table: Plain,
    pub(super) members: Vec<Function>,
    /// The numbers of the struck members.
    struck: Vec<usize>,
    entries: Vec<Function>,
    witness: Literals,
    kept: usize,
    pub(super) lines: u64,
    rounds: u64,
    line_rounds: u64,
    /// The literals fixed in the last propagation, round by round, and the member whose turn it was in PR.
    fixed: Vec<Literals>,
    turn: Option<usize>,
    pub(super) refuted: bool,
}

impl From<NoRoom> for u32 {
    fn from(_: NoRoom) -> u32 {
        23
    }
}

impl Model {
    pub(super) fn root(f: Function) -> u32 {
        (1..=N).find(|&v| under(f, Literals { yes: bit(v), no: 0 }) != f).unwrap_or(u32::MAX)
    }

    pub(super) fn take(&mut self, step: Step) -> Result<(), u32> {
        match step {
            Step::Node(v, low, high) => {
                let known = |e: u16| self.entries.get(e as usize).copied();
                if v == 0 || v > self.variables {
                    return Err(12);
                }
                let (Some(low), Some(high)) = (known(low), known(high)) else { return Err(13) };
                if v >= Model::root(low) || v >= Model::root(high) {
                    return Err(14);
                }
                let f = (variable(v) & high) | (!variable(v) & low);
                self.entry(f)?;
            }
            Step::Witness(v, value) => {
                if v == 0 || v > self.variables {
                    return Err(12);
                }
                if (self.witness.yes | self.witness.no) & bit(v) != 0 {
                    return Err(15);
                }
                *(if value { &mut self.witness.yes } else { &mut self.witness.no }) |= bit(v);
            }
            Step::Line(root, rule) => self.line(root, rule)?,
            Step::Strike(_) if self.witness != Literals::default() => return Err(16),
            Step::Strike(member) => {
                let member = member as usize;
                if member >= self.members.len() || self.struck.contains(&member) {
                    return Err(28);
                }
                self.struck.push(member);
            }
            Step::AtLeast(set, _) | Step::Parity(set, _) if set >> self.variables != 0 => return Err(12),
            Step::Parity(_, byte) if byte > 1 => return Err(29),
            Step::AtLeast(set, least) => self.entry(at_least(set, least))?,
            Step::Parity(set, odd) => self.entry(parity(set, odd))?,
            Step::End if self.witness != Literals::default() => return Err(16),
            Step::End => return Err(if self.refuted { 0 } else { 20 }),
        }
        Ok(())
    }

    fn line(&mut self, root: u16, rule: Rule) -> Result<(), u32> {
        if self.cons && rule == Rule::Pr {
            return Err(33);
        }
        let g = *self.entries.get(root as usize).ok_or(13u32)?;
        if rule != Rule::Pr && self.witness != Literals::default() {
            return Err(16);
        }
        if g == ALL {
            return Err(17);
        }
        if rule == Rule::Pr && under(g, self.witness) != ALL {
            return Err(18);
        }
        let last_entry = self.table.nodes.len();
        self.line_rounds = 0;
        if !self.shown(g, rule)? {
            return Err(19);
        }
        self.accept(g, last_entry);
        Ok(())
    }

    pub(super) fn accept(&mut self, g: Function, last_entry: usize) {
        self.table.nodes.truncate(last_entry);
        self.kept = last_entry;
        self.members.push(g);
        self.entries = vec![0, ALL];
        self.witness = Literals::default();
        self.lines += 1;
        self.rounds += self.line_rounds;
        self.refuted |= g == 0;
    }

    /// An added clause of a DRAT text.
    pub(super) fn add(&mut self, literals: &[i32]) -> Result<(), u32> {
        let g = clause(literals);
        if g == ALL {
            return Err(17);
        }
        self.table.build(g)?;
        let last_entry = self.table.nodes.len();
        self.line_rounds = 0;
        let mut shown = self.shown(g, Rule::Rup)?;
        if let (false, false, Some(&pivot)) = (self.cons, shown, literals.first()) {
            self.table.nodes.truncate(last_entry);
            self.line_rounds = 0;
            for &literal in literals {
                let made_true = (literal == pivot) == (literal > 0);
                *(if made_true { &mut self.witness.yes } else { &mut self.witness.no }) |= bit(literal.unsigned_abs());
            }
            shown = self.shown(g, Rule::Pr)?;
        }
        if !shown {
            return Err(19);
        }
        self.accept(g, last_entry);
        Ok(())
    }

    /// A struck clause of a DRAT text.
    pub(super) fn strike(&mut self, literals: &[i32]) -> Result<(), u32> {
        let f = clause(literals);
        let same = |at: &usize| self.members[*at] == f && !self.struck.contains(at);
        let member = (0..self.members.len()).find(same).ok_or(28u32)?;
        self.struck.push(member);
        Ok(())
    }

    pub(super) fn entry(&mut self, f: Function) -> Result<(), NoRoom> {
        self.table.build(f)?;
        self.entries.push(f);
        Ok(())
    }

    fn live(&self) -> Vec<Function> {
        self.live_numbers().into_iter().map(|at| self.members[at]).collect()
    }

    fn live_numbers(&self) -> Vec<usize> {
        (0..self.members.len()).filter(|at| !self.struck.contains(at)).collect()
    }

    pub(super) fn shown(&mut self, g: Function, rule: Rule) -> Result<bool, NoRoom> {
        if rule == Rule::Path {
            return self.shown_by_paths(g);
        }
        self.turn = None;
        self.table.build(!g)?;
        let members = self.live();
        let first = self.each(&members, |f| nearest(f, !g))?;
        if rule == Rule::Rup {
            return self.conflicts(first);
        }
        let before = self.table.nodes.len();
        for at in self.live_numbers() {
            self.turn = Some(at);
            let h = under(self.members[at], self.witness);
            if h != ALL {
                self.table.build(h)?;
                self.table.build(!h)?;
                let second = self.each(&first, |f| nearest(f, !h))?;
                if !self.conflicts(second)? {
                    return Ok(false);
                }
            }
            self.table.nodes.truncate(before);
        }
        Ok(true)
    }

    fn shown_by_paths(&mut self, g: Function) -> Result<bool, NoRoom> {
        self.turn = None;
        let members = self.live();
        let before = self.table.nodes.len();
        for path in paths_to_0(g) {
            let cofactored = self.each(&members, |f| under(f, path))?;
            if !self.conflicts(cofactored)? {
                return Ok(false);
            }
            self.table.nodes.truncate(before);
        }
        Ok(true)
    }

    pub(super) fn each(
        &mut self,
        members: &[Function],
        change: impl Fn(Function) -> Function,
    ) -> Result<Vec<Function>, NoRoom> {
        members.iter().map(|&f| self.table.build(change(f)).map(|_| change(f))).collect()
    }

    pub(super) fn conflicts(&mut self, mut members: Vec<Function>) -> Result<bool, NoRoom> {
        self.fixed.clear();
        loop {
            if members.iter().any(|&f| f == 0 || members.contains(&!f)) {
                return Ok(true);
            }
            let Some(by) = members.iter().map(|&f| units(f)).find(|u| *u != Literals::default()) else {
                return Ok(false);
            };
            members = self.each(&members, |f| under(f, by))?;
            self.fixed.push(by);
            self.line_rounds += 1;
        }
    }
}

impl Model {
    pub(super) fn last_entry(&self) -> Function {
        self.entries[self.entries.len() - 1]
    }

    pub(super) fn is_struck(&self, member: usize) -> bool {
        self.struck.contains(&member)
    }

    /// The cause of 19.
    pub(super) fn unshown(&self) -> String {
        let literal = |by: &Literals, v: u32| {
            let signs = [(by.yes, ""), (by.no, "-")];
            signs.into_iter().filter(|(set, _)| set & bit(v) != 0).map(|(_, sign)| format!("{sign}{v}")).next()
        };
        let round = |by: &Literals| (1..=N).filter_map(|v| literal(by, v)).collect::<Vec<String>>().join(",");
        let rounds: Vec<String> = self.fixed.iter().map(round).collect();
        let rounds = if rounds.is_empty() { "-".into() } else { rounds.join(";") };
        rounds + &self.turn.map(|member| format!(" m{member}")).unwrap_or_default()
    }

    /// The cause of 14: the record's variable and that of the child, the low one's if both offend.
    pub(super) fn not_before(&self, v: u32, low: u16, high: u16) -> String {
        let roots = [low, high].map(|entry| Model::root(self.entries[entry as usize]));
        let offending = roots.into_iter().find(|&root| root <= v).unwrap();
        format!("{v},{offending}")
    }

    /// The cause of 18: of all assignments that agree with the witness and make the line false, the smallest
    /// with variable 1 as the top digit.
    pub(super) fn falsified(&self, root: u16) -> String {
        let g = self.entries[root as usize];
        let agrees = |a: u32| a as u64 & self.witness.yes == self.witness.yes && a as u64 & self.witness.no == 0;
        let reads = |a: &u32| (1..=N).fold(0, |read, v| 2 * read + (a >> (v - 1) & 1));
        (0..16u32).filter(|&a| agrees(a) && !value(g, a)).min_by_key(reads).unwrap().to_string()
    }
}

/// The model after a formula that is well written, where that fits the table.
pub(super) fn opened(variables: u32, size: usize, clauses: &[Function]) -> Option<Model> {
    let mut table = Plain::new(size);
    for &clause in clauses {
        table.build(clause).ok()?;
    }
    Some(Model {
        cons: false,
        variables,
        kept: table.nodes.len(),
        table,
        members: clauses.to_vec(),
        struck: Vec::new(),
        entries: vec![0, ALL],
        witness: Literals::default(),
        lines: 0,
        rounds: 0,
        line_rounds: 0,
        fixed: Vec::new(),
        turn: None,
        refuted: false,
    })
}

pub(super) fn report(number: u32, place: usize, model: Model) -> String {
    let (mut table, count) = (model.table, model.kept);
    table.nodes.truncate(count);
    let members: Vec<String> = model.members.iter().map(|&f| table.build(f).ok().unwrap().to_string()).collect();
    let marks: String = (0..members.len()).map(|at| if model.struck.contains(&at) { '1' } else { '0' }).collect();
    let (members, marks) = if members.is_empty() { ("-".into(), "-".into()) } else { (members.join(","), marks) };
    let counts = format!("{} {} {count} {}", model.lines, model.rounds, table.peak);
    format!("{number} {place} {counts} | {} | {members} | {marks}", table.text())
}

pub(super) fn formula(random: &mut Random, variables: u32, clauses: &[(Vec<i32>, Function)]) -> String {
    let mut text = format!("p cnf {variables} {}\n", clauses.len());
    for (literals, _) in clauses {
        push_clause(random, literals, &mut text);
    }
    text
}
