//! Records of files: "Every record begins with a two-byte mark"; numbers are 16 bits, high byte first.

use crate::refusal::{Refusal, BYTES_AFTER, FILE_ENDS, OUTPUT_SHORT, WRONG_MARK};

pub const ORDER_HEADER: [u8; 2] = [0x48, 0x44];
pub const SCALE: [u8; 2] = [0x53, 0x43];
pub const ORDER_POINT: [u8; 2] = [0x50, 0x54];
pub const DRAWING_HEADER: [u8; 2] = [0x44, 0x48];
pub const STRAIGHT_HEADER: [u8; 2] = [0x44, 0x53];
pub const DRAWING_POINT: [u8; 2] = [0x50, 0x4F];
pub const DRAWING_LINE: [u8; 2] = [0x4C, 0x4E];
pub const END: [u8; 2] = [0x45, 0x4E];

/// Reads a file record by record.
pub struct Reader<'a> {
    bytes: &'a [u8],
    at: usize,
    record: usize,
}

impl<'a> Reader<'a> {
    /// A reader at the start of the file.
    pub fn new(bytes: &'a [u8]) -> Self {
        Reader {
            bytes,
            at: 0,
            record: 0,
        }
    }

    /// The next two bytes, if there are two.
    fn next_two(&self) -> Option<[u8; 2]> {
        self.bytes.get(self.at..)?.first_chunk().copied()
    }

    /// Whether the next record has this mark.
    pub fn mark_is(&self, mark: [u8; 2]) -> bool {
        self.next_two() == Some(mark)
    }

    /// "1 if fewer than two bytes are left, 2"; gives "the offset of the record's mark".
    pub fn mark(&mut self, mark: [u8; 2]) -> Result<usize, Refusal> {
        self.record = self.at;
        match self.next_two() {
            None => Err(Refusal::new(FILE_ENDS, self.record)),
            Some(found) if found != mark => Err(Refusal::new(WRONG_MARK, self.record)),
            Some(_) => {
                self.at += 2;
                Ok(self.record)
            }
        }
    }

    /// "then 1 for the rest": the next number of the record.
    pub fn number(&mut self) -> Result<u16, Refusal> {
        let two = self
            .next_two()
            .ok_or(Refusal::new(FILE_ENDS, self.record))?;
        self.at += 2;
        Ok(u16::from_be_bytes(two))
    }

    /// "10: the first extra byte"
    pub fn end(&self) -> Result<(), Refusal> {
        if self.at < self.bytes.len() {
            return Err(Refusal::new(BYTES_AFTER, self.at));
        }
        Ok(())
    }
}

/// "File numbers are 16 bits, high byte first."
pub fn put(bytes: &mut Vec<u8>, mark: [u8; 2], numbers: &[u16]) {
    bytes.extend(mark);
    bytes.extend(numbers.iter().flat_map(|number| number.to_be_bytes()));
}

/// "24 always has place 0. Output past the written bytes stays." Gives the number of bytes written.
pub fn put_out(bytes: &[u8], out: &mut [u8]) -> Result<usize, Refusal> {
    let target = out
        .get_mut(..bytes.len())
        .ok_or(Refusal::new(OUTPUT_SHORT, 0))?;
    target.copy_from_slice(bytes);
    Ok(bytes.len())
}
