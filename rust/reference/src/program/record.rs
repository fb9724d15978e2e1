//! Records of eight bytes.

/// "63 records of 8 bytes"
pub const RECORD_BYTES: usize = 8;

/// "Nine kinds of record, by byte 0"
pub mod kind {
    pub const CONST: u8 = 0;
    pub const VAR: u8 = 1;
    pub const ADD: u8 = 2;
    pub const IF_ZERO: u8 = 3;
    pub const LET: u8 = 4;
    pub const LEAF: u8 = 5;
    pub const NODE: u8 = 6;
    pub const CASE: u8 = 7;
    pub const CALL: u8 = 8;
}

/// A record of a node: "byte 1 is a, bytes 2–3 b, bytes 4–7 i". The header
/// has the edition, F, N and zero in the same places, a function record the
/// result, the number parameters, the node count and zero.
#[derive(Clone, Copy, Debug, Default, PartialEq, Eq)]
pub struct Record {
    pub kind: u8,
    pub a: u8,
    pub b: u16,
    pub i: u32,
}

impl Record {
    /// "Numbers of several bytes stand low byte first."
    pub fn from_bytes(bytes: [u8; RECORD_BYTES]) -> Record {
        let [kind, a, b0, b1, i0, i1, i2, i3] = bytes;
        let b = u16::from_le_bytes([b0, b1]);
        let i = u32::from_le_bytes([i0, i1, i2, i3]);
        Record { kind, a, b, i }
    }

    /// The eight bytes.
    pub fn to_bytes(self) -> [u8; RECORD_BYTES] {
        let [b0, b1] = self.b.to_le_bytes();
        let [i0, i1, i2, i3] = self.i.to_le_bytes();
        [self.kind, self.a, b0, b1, i0, i1, i2, i3]
    }

    /// The whole records at the start of the bytes.
    pub fn list(bytes: &[u8]) -> Vec<Record> {
        bytes
            .chunks_exact(RECORD_BYTES)
            .map(|record| Record::from_bytes(record.try_into().expect("eight bytes")))
            .collect()
    }

    /// The bytes of the records, one after the other.
    pub fn bytes(records: &[Record]) -> Vec<u8> {
        records
            .iter()
            .flat_map(|record| record.to_bytes())
            .collect()
    }
}
