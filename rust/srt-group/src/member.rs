//! A member as it is shown.
use std::num::NonZeroU32;

use crate::ConnectionState;
use crate::leg::narrow;
use crate::state::{self, MAX_MEMBERS, MemberShown};

/// A member's state in its group.
#[derive(Clone, Copy, Debug, PartialEq, Eq, Hash)]
pub enum GroupMemberState {
    /// Added, and not connected yet.
    Pending,
    /// It carries.
    Active,
    /// It waits to be promoted, in Backup.
    Standby,
    /// Its window was full, or as a carrier it fell silent. It comes back once its flight is empty.
    Unstable,
    /// Out, for good.
    Broken,
}

impl GroupMemberState {
    fn of(word: u64) -> Self {
        match word {
            state::LABEL_PENDING => Self::Pending,
            state::LABEL_ACTIVE => Self::Active,
            state::LABEL_STANDBY => Self::Standby,
            state::LABEL_UNSTABLE => Self::Unstable,
            state::LABEL_BROKEN => Self::Broken,
            _ => unreachable!("a valid state has no member in state {word}"),
        }
    }
}

/// A leg whose peer named another receiving group than the one that its group is bound to. Its member is
/// [`Broken`](GroupMemberState::Broken).
#[derive(Clone, Copy, Debug, PartialEq, Eq, Hash)]
pub struct PeerGroupCollision {
    /// The receiving group that the group is bound to.
    pub expected_peer_group_id: u32,
    /// The one that the leg's peer named.
    pub actual_peer_group_id: u32,
}

/// A member, as [`Group::member`](crate::Group::member) and [`Group::members`](crate::Group::members) show it.
#[derive(Clone, Copy, Debug, PartialEq, Eq, Hash)]
pub struct GroupMember {
    /// Its id.
    pub id: u32,
    /// Its weight: the highest is promoted first.
    pub weight: u16,
    /// Its state in the group.
    pub state: GroupMemberState,
    /// How far its leg's connection is.
    pub connection: ConnectionState,
    /// Whether the receiving group that its peer named was taken as the group's.
    pub peer_group_admitted: bool,
    /// The packets that the group holds for it behind a gap, each by its count.
    pub reserved_packets: u64,
    /// The collision that broke it. It stays readable until the member is removed.
    pub collision: Option<PeerGroupCollision>,
}

impl GroupMember {
    pub(crate) fn of(shown: &MemberShown) -> Self {
        let [id, weight, state, connection, admitted, reserved, expected, actual] = *shown;
        Self {
            id: narrow(id),
            weight: narrow(weight) as u16,
            state: GroupMemberState::of(state),
            connection: ConnectionState::of(connection),
            peer_group_admitted: admitted != 0,
            reserved_packets: reserved,
            collision: NonZeroU32::new(narrow(actual))
                .map(|actual| PeerGroupCollision { expected_peer_group_id: narrow(expected), actual_peer_group_id: actual.get() }),
        }
    }
}

/// The members of a group in the order of their addition, as they were when [`Group::members`](crate::Group::members) was called.
#[derive(Clone, Debug)]
pub struct GroupMembers {
    list: [MemberShown; MAX_MEMBERS],
    left: std::ops::Range<usize>,
}

impl GroupMembers {
    pub(crate) fn of((list, filled): ([MemberShown; MAX_MEMBERS], usize)) -> Self {
        Self { list, left: 0..filled }
    }
}

impl Iterator for GroupMembers {
    type Item = GroupMember;

    fn next(&mut self) -> Option<GroupMember> {
        self.left.next().map(|row| GroupMember::of(&self.list[row]))
    }

    fn size_hint(&self) -> (usize, Option<usize>) {
        self.left.size_hint()
    }
}

impl ExactSizeIterator for GroupMembers {}
impl std::iter::FusedIterator for GroupMembers {}
