//! "The proof": a reader of records that holds the proof bytes and its place.

#[derive(Clone, Copy, PartialEq, Eq, Debug)]
pub struct EntryId(pub u16);

/// A number of the member list.
#[derive(Clone, Copy, PartialEq, Eq, Debug)]
pub struct MemberId(pub u16);

#[derive(Clone, Copy, PartialEq, Eq, Debug)]
pub enum Record {
    Node {
        variable: u8,
        low: EntryId,
        high: EntryId,
    },
    Witness {
        variable: u8,
        value: bool,
    },
    Rup {
        root: EntryId,
    },
    Pr {
        root: EntryId,
    },
    Path {
        root: EntryId,
    },
    Strike {
        member: MemberId,
    },
    /// Sets: bit i-1 for variable i.
    Parity {
        set: u64,
        odd: u8,
    },
    AtLeast {
        set: u64,
        least: u8,
    },
    End,
}

impl Record {
    pub fn is_line(self) -> bool {
        matches!(self, Record::Rup { .. } | Record::Pr { .. } | Record::Path { .. })
    }
}

pub struct Reader<'a> {
    bytes: &'a [u8],
    place: usize,
}

impl<'a> Reader<'a> {
    pub fn new(bytes: &'a [u8]) -> Reader<'a> {
        Reader::at(bytes, 0)
    }

    /// From a place on.
    pub fn at(bytes: &'a [u8], place: usize) -> Reader<'a> {
        Reader { bytes, place }
    }

    pub fn place(&self) -> usize {
        self.place
    }

    pub fn at_end(&self) -> bool {
        self.place == self.bytes.len()
    }

    /// The next record, or the number that refuses it: its kind (9) before its length (10).
    pub fn take(&mut self) -> Result<Record, u32> {
        let kind = self.body::<1>()?[0];
        Ok(match kind {
            0x4E => {
                let [variable, l0, l1, h0, h1] = self.body()?;
                Record::Node { variable, low: entry([l0, l1]), high: entry([h0, h1]) }
            }
            0x54 | 0x46 => Record::Witness { value: kind == 0x54, variable: self.body::<1>()?[0] },
            0x52 => Record::Rup { root: entry(self.body()?) },
            0x50 => Record::Pr { root: entry(self.body()?) },
            0x51 => Record::Path { root: entry(self.body()?) },
            0x44 => Record::Strike { member: MemberId(u16::from_le_bytes(self.body()?)) },
            0x58 => Record::Parity { set: u64::from_le_bytes(self.body()?), odd: self.body::<1>()?[0] },
            0x4B => Record::AtLeast { set: u64::from_le_bytes(self.body()?), least: self.body::<1>()?[0] },
            0x45 => Record::End,
            _ => return Err(9),
        })
    }

    fn body<const LENGTH: usize>(&mut self) -> Result<[u8; LENGTH], u32> {
        let body = self.bytes[self.place..].first_chunk().ok_or(10u32)?;
        self.place += LENGTH;
        Ok(*body)
    }
}

/// "Numbers low byte first."
fn entry(bytes: [u8; 2]) -> EntryId {
    EntryId(u16::from_le_bytes(bytes))
}
