//! The calls that only look, beside what the Rust shows.

use oracle::gateway::Gateway;
use srt_protocol::srt_connection::ConnectionState;
use srt_protocol::{GroupMemberState, GroupMode, SrtGroup, SrtGroupMember};

use crate::library::{self, Call};
use crate::memory::Memory;
use crate::raw;

/// Every look; nothing but the answer's row and the list of members changes.
pub fn compare(gateway: &Gateway, memory: &mut Memory) -> Result<(), String> {
    let before = memory.clone();
    let group = gateway.group();
    for (name, number) in group.map_or_else(|| NUMBERS.map(|name| (name, 0)), numbers) {
        look(memory, name, group.is_some(), &[number])?;
    }
    let mut rows = Vec::new();
    for member in group.map_or(&[][..], |group| group.members()) {
        let row = row(gateway, member);
        let call = Call {
            name: "member",
            numbers: vec![row[0]],
            payload: Vec::new(),
        };
        said(memory, &call, true, &row)?;
        rows.extend(row);
    }
    let count = (rows.len() / raw::MEMBER_ANSWER_WORDS) as u64;
    look(memory, "members", group.is_some(), &[count])?;
    let mut after = before;
    after.shown[..rows.len()].copy_from_slice(&rows);
    after.answer.copy_from_slice(&memory.answer);
    memory
        .difference(&after)
        .map_or(Ok(()), |place| Err(format!("looks left: {place}")))
}

const NUMBERS: [&str; 6] = [
    "group_id",
    "mode",
    "peer_group_id",
    "skipped",
    "pending",
    "continuation",
];

fn numbers(group: &SrtGroup) -> [(&'static str, u64); 6] {
    let shown = [
        group.group_id().into(),
        (group.mode() == GroupMode::Backup).into(),
        group.peer_group_id().unwrap_or(0).into(),
        group.skipped_receive_packets(),
        group.has_pending_data().into(),
        group.has_receive_continuation().into(),
    ];
    std::array::from_fn(|look| (NUMBERS[look], shown[look]))
}

fn look(memory: &mut Memory, name: &str, has_group: bool, expected: &[u64]) -> Result<(), String> {
    let call = Call {
        name,
        numbers: Vec::new(),
        payload: Vec::new(),
    };
    said(memory, &call, has_group, expected)
}

/// The look says these words; without a group 6, and 0.
fn said(
    memory: &mut Memory,
    call: &Call<'_>,
    has_group: bool,
    expected: &[u64],
) -> Result<(), String> {
    let code = library::look(memory, call).ok_or("the library has no such look")?;
    let answer = &memory.answer[..expected.len()];
    let right = match has_group {
        true => code == 0 && answer == expected,
        false => code == 6 && answer.iter().all(|&word| word == 0),
    };
    if right {
        return Ok(());
    }
    Err(format!(
        "look {} {:?}: code {code}, {answer:?}; the Rust shows {expected:?}",
        call.name, call.numbers
    ))
}

/// A member as the looks show it.
fn row(gateway: &Gateway, member: &SrtGroupMember) -> [u64; 8] {
    let label = match member.state() {
        GroupMemberState::Pending => raw::LABEL_PENDING,
        GroupMemberState::Active => raw::LABEL_ACTIVE,
        GroupMemberState::Standby => raw::LABEL_STANDBY,
        GroupMemberState::Unstable => raw::LABEL_UNSTABLE,
        GroupMemberState::Broken => raw::LABEL_BROKEN,
    };
    let state = match member.connection().state() {
        ConnectionState::Handshaking => 0,
        ConnectionState::Connected => 1,
        ConnectionState::Disconnected => 2,
    };
    let collision = gateway.collision(member.id());
    let [expected, actual] = collision.map_or([0; 2], |collision| {
        [
            collision.expected_peer_group_id.into(),
            collision.actual_peer_group_id.into(),
        ]
    });
    [
        member.id().into(),
        member.weight().into(),
        label,
        state,
        member.peer_group_admitted().into(),
        member.reserved_packets().into(),
        expected,
        actual,
    ]
}
