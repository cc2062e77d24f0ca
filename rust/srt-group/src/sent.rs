//! The list of sends.
use crate::Timestamp;
use crate::leg::narrow;
use crate::state::{OWN_PAYLOAD, SENT_ROW_WORDS};

/// One send that a leg took: a row of document 01's list of sends.
#[derive(Clone, Copy, Debug, Default, PartialEq, Eq, Hash)]
#[repr(transparent)]
pub struct Sent([u64; SENT_ROW_WORDS]);

impl Sent {
    /// The member on whose leg it went out.
    pub fn member_id(&self) -> u32 {
        narrow(self.0[0])
    }

    /// The sequence that it went out with.
    pub fn sequence_number(&self) -> u32 {
        narrow(self.0[1])
    }

    /// The cell of the history that its payload is in, for a replay; none for the call's own payload.
    /// [`Group::replayed`](crate::Group::replayed) has its bytes.
    pub fn history_cell(&self) -> Option<u32> {
        (self.0[2] != OWN_PAYLOAD).then(|| narrow(self.0[2]))
    }

    /// When its payload was first sent; for the call's own payload that is now.
    pub fn source_time(&self) -> Timestamp {
        Timestamp(self.0[3])
    }

    /// The time of the call that sent it.
    pub fn time(&self) -> Timestamp {
        Timestamp(self.0[4])
    }
}
