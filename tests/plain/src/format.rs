//! The journal's layout (document 01, "The journal"): 20-byte records, little-endian.
//! Record 0 is the head; it has the same columns as the other records.

pub const RECORD_BYTES: usize = 20;
pub const MAX_RECORDS: u32 = 3_200;
pub const MAX_TRANSACTION: u16 = 1_024;
pub const MAX_ITEMS: u32 = 1_024;
/// Length of the status vector (01: marks), one byte per transaction number from 0.
pub const STATUS_BYTES: usize = 1_025;
/// The program reads this many bytes of each file.
pub const FILE_BYTES: usize = 64_020;

pub const READ: u8 = 1;
pub const WRITE: u8 = 2;
pub const COMMIT: u8 = 3;
/// 01: rollback.
pub const ABORT: u8 = 4;

/// The columns of the layout. In the head, `next` is the record count and `item` the item count.
#[derive(Debug, Clone, Copy, PartialEq, Eq, Default)]
pub struct Record {
    /// Byte 0.
    pub kind: u8,
    /// Byte 1.
    pub zero: u8,
    /// Bytes 2-3 (01: sale).
    pub transaction: u16,
    /// Bytes 4-7.
    pub next: u32,
    /// Bytes 8-11.
    pub item: u32,
    /// Bytes 12-15.
    pub before: i32,
    /// Bytes 16-19.
    pub after: i32,
}

impl Record {
    /// The head of a journal with these counts.
    pub fn head(count: u32, items: u32) -> Record {
        Record {
            next: count,
            item: items,
            ..Record::default()
        }
    }

    pub fn is_read(&self) -> bool {
        self.kind == READ
    }

    pub fn is_write(&self) -> bool {
        self.kind == WRITE
    }

    pub fn is_commit(&self) -> bool {
        self.kind == COMMIT
    }

    pub fn is_abort(&self) -> bool {
        self.kind == ABORT
    }

    /// Commit or rollback (01: the ends).
    pub fn is_termination(&self) -> bool {
        self.is_commit() || self.is_abort()
    }

    /// The record in the first 20 of these bytes.
    pub fn decode(bytes: &[u8]) -> Record {
        Record {
            kind: bytes[0],
            zero: bytes[1],
            transaction: u16::from_le_bytes([bytes[2], bytes[3]]),
            next: u32::from_le_bytes([bytes[4], bytes[5], bytes[6], bytes[7]]),
            item: u32::from_le_bytes([bytes[8], bytes[9], bytes[10], bytes[11]]),
            before: i32::from_le_bytes([bytes[12], bytes[13], bytes[14], bytes[15]]),
            after: i32::from_le_bytes([bytes[16], bytes[17], bytes[18], bytes[19]]),
        }
    }

    pub fn encode(&self) -> [u8; RECORD_BYTES] {
        let mut bytes = [0; RECORD_BYTES];
        bytes[0] = self.kind;
        bytes[1] = self.zero;
        bytes[2..4].copy_from_slice(&self.transaction.to_le_bytes());
        bytes[4..8].copy_from_slice(&self.next.to_le_bytes());
        bytes[8..12].copy_from_slice(&self.item.to_le_bytes());
        bytes[12..16].copy_from_slice(&self.before.to_le_bytes());
        bytes[16..20].copy_from_slice(&self.after.to_le_bytes());
        bytes
    }
}

/// The bytes of these records, head first.
pub fn encode_all(records: &[Record]) -> Vec<u8> {
    records.iter().flat_map(Record::encode).collect()
}

/// The right next of record i: the lowest later record with the same bytes 2-3, or 0.
pub fn next_link(records: &[Record], i: usize) -> u32 {
    for later in i + 1..records.len() {
        if records[later].transaction == records[i].transaction {
            return later as u32;
        }
    }
    0
}
