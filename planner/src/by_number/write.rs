//! FPLAN written back from a table, in one clean form (document 02, No. 11).

use super::ask::{answered, Table};
use crate::memory::room_for_bytes;
use crate::raw;
use crate::refusal::Refusal;
use crate::version::compared;

impl Table<'_> {
    /// Writes the services as FPLAN into the bytes lent, and says how many there are: so many from the first, later ones stay. A table without
    /// services is no bytes.
    ///
    /// # Errors
    ///
    /// 21; 44, which the table of an accepted delivery never is; 45 with the bytes needed. The bytes stay as lent.
    ///
    /// # Panics
    ///
    /// As [`load`](crate::by_number::load) does.
    pub fn write_fplan(self, text: &mut [u8]) -> Result<usize, Refusal> {
        compared();
        let (words, used) = (self.words().as_ptr(), self.words().len());
        // SAFETY: each pointer and length is that of a slice, and the mutable slice does not overlap the other.
        let answer = unsafe { raw::estelunya_write(words, used, text.as_mut_ptr(), text.len()) };
        answered(answer.number, answer.bytes, answer.bytes)
    }

    /// The same into bytes of their own.
    ///
    /// # Errors
    ///
    /// 21 or 44; 45 with the bytes needed, if there is no memory for them.
    pub fn fplan(self) -> Result<Vec<u8>, Refusal> {
        // Lent none, the archive says how many bytes it needs.
        let needed = match self.write_fplan(&mut []) {
            Err(Refusal::TextTooShort { needed }) => needed,
            answer => answer?,
        };
        let mut text = room_for_bytes(needed).map_err(|_| Refusal::TextTooShort { needed })?;
        text.resize(needed, 0);
        let written = self.write_fplan(&mut text)?;
        text.truncate(written);
        Ok(text)
    }
}
