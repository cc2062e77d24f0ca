//! A stand-in for the crate `bytes`: shared bytes that also know the cell of the store they lie in.

use std::cell::Cell;
use std::rc::Rc;

/// The cell number of bytes that lie in no cell: a call's own payload.
pub const NO_CELL: u32 = u32::MAX;

/// Reference-counted bytes. Clones share the bytes and the cell number.
#[derive(Debug, Clone, PartialEq, Eq)]
pub struct Bytes {
    shared: Rc<Shared>,
}

#[derive(Debug)]
struct Shared {
    bytes: Vec<u8>,
    cell: Cell<u32>,
}

/// Two payloads are equal by their bytes; where they lie does not matter.
impl PartialEq for Shared {
    fn eq(&self, other: &Self) -> bool {
        self.bytes == other.bytes
    }
}

impl Eq for Shared {}

impl Bytes {
    pub fn copy_from_slice(bytes: &[u8]) -> Self {
        Self {
            shared: Rc::new(Shared {
                bytes: bytes.to_vec(),
                cell: Cell::new(NO_CELL),
            }),
        }
    }

    /// The cell these bytes lie in, or [`NO_CELL`].
    pub fn cell(&self) -> u32 {
        self.shared.cell.get()
    }

    /// Put these bytes, and every clone of them, into a cell.
    pub fn set_cell(&self, cell: u32) {
        self.shared.cell.set(cell);
    }
}

impl std::ops::Deref for Bytes {
    type Target = [u8];

    fn deref(&self) -> &[u8] {
        &self.shared.bytes
    }
}
