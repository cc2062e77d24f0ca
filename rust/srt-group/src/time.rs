/// A moment, in microseconds of whatever clock the host keeps.
///
/// A type of its own, so that microseconds never meet sequence numbers. It adds and subtracts without overflow, as the Rust's does.
///
/// ```
/// use srt_group::Timestamp;
///
/// let sent = Timestamp::from_micros(1_000);
/// assert_eq!(sent.add_micros(500), Timestamp(1_500));
/// assert_eq!(sent.saturating_sub(Timestamp(1_500)), 0);
/// ```
#[derive(Clone, Copy, Debug, Default, PartialEq, Eq, PartialOrd, Ord, Hash)]
pub struct Timestamp(
    /// The microseconds.
    pub u64,
);

impl Timestamp {
    /// The moment after so many microseconds.
    pub const fn from_micros(micros: u64) -> Self {
        Self(micros)
    }

    /// Its microseconds.
    pub const fn as_micros(self) -> u64 {
        self.0
    }

    /// The microseconds from `other` to this moment; 0 if `other` is the later one.
    pub const fn saturating_sub(self, other: Self) -> u64 {
        self.0.saturating_sub(other.0)
    }

    /// So many microseconds later; at most the last moment there is.
    pub const fn add_micros(self, micros: u64) -> Self {
        Self(self.0.saturating_add(micros))
    }
}
