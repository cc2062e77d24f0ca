//! The refusals: their numbers, what they leave, their text.
use std::fmt;

pub use crate::state::Error;

impl Error {
    /// Document 01's number of this refusal.
    pub const fn number(self) -> u32 {
        self as u32
    }

    /// Whether a call that gives this refusal has changed nothing at all.
    ///
    /// So it is after every one but 22 to 29 (law `refusal_leaves_everything`, `crates/srt_group_model/specs/Laws/Refusals.antt`). Those are:
    ///
    /// - an addition's 22, [`AlignmentFailed`](Error::AlignmentFailed), after which the leg **is** a member;
    /// - a send's 22 to 29, after which members' states may have moved and [`Group::sent`](crate::Group::sent) has the sends that were made, all
    ///   of them replays: the call's own payload went out on no leg.
    ///
    /// `docs/CODES.md` says for each what it leaves.
    ///
    /// ```
    /// use srt_group::Error;
    ///
    /// assert!(Error::MemberLimit.changes_nothing());
    /// assert!(!Error::AlignmentFailed.changes_nothing());
    /// ```
    pub const fn changes_nothing(self) -> bool {
        !matches!(self.number(), 22..=29)
    }
}

impl fmt::Display for Error {
    fn fmt(&self, f: &mut fmt::Formatter<'_>) -> fmt::Result {
        write!(f, "{} (code {})", self.text(), self.number())
    }
}

impl std::error::Error for Error {}

/// The outcome of a call by its number. A call ends with 0 or with one of its codes (law `call_code`, Codes).
pub(crate) fn outcome(code: u32) -> Result<(), Error> {
    match (code, Error::of(code)) {
        (0, _) => Ok(()),
        (_, Some(error)) => Err(error),
        (_, None) => unreachable!("no call ends with {code}"),
    }
}
