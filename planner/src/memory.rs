//! Memory that may not be there: asked for, and not taken for granted. A delivery can need 860 MB (files of nothing but line ends), and a host goes on with last night's.

use std::alloc::{alloc_zeroed, Layout};
use std::error::Error;
use std::fmt;

/// There is no memory for a delivery.
#[derive(Clone, Copy, Debug, PartialEq, Eq)]
#[non_exhaustive]
pub struct NoMemory {
    /// The bytes that were asked for at once.
    pub bytes: usize,
}

impl fmt::Display for NoMemory {
    fn fmt(&self, f: &mut fmt::Formatter<'_>) -> fmt::Result {
        write!(f, "no memory: {} bytes are needed at once", self.bytes)
    }
}

impl Error for NoMemory {}

/// So many words of 0. As `vec![0; count]` it leaves zeroing to the system, which `try_reserve` would not.
pub(crate) fn zeroed(count: usize) -> Result<Vec<u32>, NoMemory> {
    let layout = Layout::array::<u32>(count).map_err(|_| NoMemory { bytes: usize::MAX })?;
    if count == 0 {
        return Ok(Vec::new());
    }
    // SAFETY: the size is not 0.
    let words = unsafe { alloc_zeroed(layout) }.cast::<u32>();
    if words.is_null() {
        return Err(NoMemory { bytes: layout.size() });
    }
    // SAFETY: the global allocator gave it just now, for so many words, and all of them are 0.
    Ok(unsafe { Vec::from_raw_parts(words, count, count) })
}

/// Room for so many bytes.
pub(crate) fn room_for_bytes(count: usize) -> Result<Vec<u8>, NoMemory> {
    let mut bytes = Vec::new();
    bytes.try_reserve_exact(count).map_err(|_| NoMemory { bytes: count })?;
    Ok(bytes)
}

#[cfg(test)]
mod tests {
    use super::{room_for_bytes, zeroed, NoMemory};

    #[test]
    fn words() {
        assert_eq!((zeroed(0), zeroed(3)), (Ok(vec![]), Ok(vec![0, 0, 0])));
        assert_eq!(zeroed(usize::MAX), Err(NoMemory { bytes: usize::MAX }));
        // more than any machine has, and not more than can be said
        let (count, bytes) = (1 << 60, 1 << 62);
        assert_eq!(zeroed(count), Err(NoMemory { bytes }));
        assert_eq!(room_for_bytes(bytes), Err(NoMemory { bytes }));
    }
}
