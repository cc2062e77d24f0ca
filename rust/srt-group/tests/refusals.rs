//! Each refusal, by its number, and what it leaves.
use srt_group::{ConnectionEvent, ConnectionState, Error, Group, GroupMemberState, GroupMode, Leg, Reading, ReceivedData, Timestamp};

const NOW: Timestamp = Timestamp(0);

fn group(mode: GroupMode, cells: usize) -> Group {
    Group::new(0x4000_0001, mode, cells).expect("a group")
}

fn connected() -> Leg {
    Leg { state: ConnectionState::Connected, next_send_sequence: 50, window: 8, ..Leg::default() }
}

/// A group with these legs, numbered from 1.
fn with_legs(mode: GroupMode, legs: &[Leg]) -> Group {
    let mut group = group(mode, 40);
    for (i, leg) in legs.iter().enumerate() {
        group.add_member(i as u32 + 1, 0, *leg).expect("a leg");
    }
    group
}

fn state(group: &Group, id: u32) -> GroupMemberState {
    group.member(id).expect("a member").state
}

#[test]
fn numbers_and_texts() {
    assert_eq!(Error::MissingGroupMask.number(), 1);
    assert_eq!(Error::OutOfTurn.number(), 32);
    assert_eq!(Error::ReplayRefused.to_string(), "the history cannot be replayed on the leg that takes over (code 28)");
    let error: Box<dyn std::error::Error + Send + Sync> = Error::MemberLimit.into();
    assert_eq!(error.to_string(), "the group has as many members as it may have (code 20)");
}

#[test]
fn code_1_no_group_mask() {
    assert_eq!(Group::new(0xbfff_ffff, GroupMode::Backup, 1).unwrap_err(), Error::MissingGroupMask);
}

#[test]
fn code_2_out_of_range() {
    assert_eq!(Group::new(0x4000_0001, GroupMode::Backup, Group::MAX_CELLS + 1).unwrap_err(), Error::OutOfRange);
    let mut group = with_legs(GroupMode::Broadcast, &[connected()]);
    for leg in [
        Leg { flight: 65_536, ..connected() },
        Leg { flight: 1, state: ConnectionState::Handshaking, ..connected() },
        Leg { window: 65_536, ..connected() },
        Leg { receive_window: 65_536, ..connected() },
        Leg { payload_limit: 65_536, ..connected() },
        Leg { next_send_sequence: 1 << 31, ..connected() },
        Leg { advanced: 1 << 31, ..connected() },
        Leg { peer_initial_sequence: Some(1 << 31), ..connected() },
        // The word that says that there is none.
        Leg { peer_initial_sequence: Some(u32::MAX), ..connected() },
    ] {
        assert_eq!(group.add_member(2, 0, leg), Err(Error::OutOfRange), "{leg:?}");
    }
    for reading in
        [Reading::Window(65_536), Reading::ReceiveWindow(65_536), Reading::PayloadLimit(65_536), Reading::AcknowledgedUpTo(1 << 31)]
    {
        assert_eq!(group.read_leg(1, reading), Err(Error::OutOfRange), "{reading:?}");
    }
    let data = ReceivedData::new(0, b"A");
    for data in [
        ReceivedData { sequence_number: 1 << 31, ..data },
        ReceivedData { packet_count: 0, ..data },
        ReceivedData { packet_count: 65_536, ..data },
    ] {
        assert_eq!(group.queue_data(1, data), Err(Error::OutOfRange), "{data:?}");
    }
    assert_eq!(group.members().len(), 1);
}

#[test]
fn code_3_unknown_member() {
    let mut group = with_legs(GroupMode::Broadcast, &[connected()]);
    assert_eq!(group.mark_member_broken(2), Err(Error::UnknownMember));
    assert_eq!(group.remove_member(2), Err(Error::UnknownMember));
    assert_eq!(group.remove_member_connection(2), Err(Error::UnknownMember));
    assert_eq!(group.queue_data(2, ReceivedData::new(0, b"A")), Err(Error::UnknownMember));
    assert_eq!(group.queue_event(2, ConnectionEvent::Connected), Err(Error::UnknownMember));
    assert_eq!(group.read_leg(2, Reading::Window(1)), Err(Error::UnknownMember));
    assert_eq!(group.backup_stability_timeout_micros(2), Err(Error::UnknownMember));
    assert_eq!(group.member(2), Err(Error::UnknownMember));
}

#[test]
fn code_4_payload_too_long() {
    let mut group = with_legs(GroupMode::Broadcast, &[Leg { payload_limit: 65_535, ..connected() }]);
    let long = [0; Group::CELL + 1];
    assert_eq!(group.queue_data(1, ReceivedData::new(0, &long)), Err(Error::PayloadTooLong));
    assert_eq!(group.send(&long, NOW), Err(Error::PayloadTooLong));
    assert_eq!(group.queue_data(1, ReceivedData::new(0, &long[1..])), Ok(()));
    assert_eq!(group.send(&long[1..], NOW), Ok(1));
    assert_eq!(group.send_shared(b"", NOW), Ok(1));
}

#[test]
fn code_5_insufficient_buffer() {
    assert_eq!(Group::new(0x4000_0001, GroupMode::Broadcast, 0).unwrap_err(), Error::InsufficientBuffer);
    let mut group = with_legs(GroupMode::Broadcast, &[connected()]);
    let mut short = [0; Group::OUTPUT - 1];
    assert_eq!(group.poll_data_into(NOW, &mut short), Err(Error::InsufficientBuffer));
    assert_eq!(group.poll_data_bounded_into(NOW, 64, &mut short), Err(Error::InsufficientBuffer));
    assert_eq!(group.poll_event_into(NOW, &mut short), Err(Error::InsufficientBuffer));
}

#[test]
fn codes_20_and_21_additions() {
    let mut group = with_legs(GroupMode::Broadcast, &[connected(); Group::MAX_MEMBERS]);
    assert_eq!(group.add_member(65, 0, connected()), Err(Error::MemberLimit));
    assert_eq!(group.remove_member(64), Ok(()));
    assert_eq!(group.add_member(1, 0, connected()), Err(Error::DuplicateMember));
    assert_eq!(group.add_member(65, 0, connected()), Ok(()));
}

#[test]
fn codes_22_and_25_a_leg_elsewhere() {
    let mut group = with_legs(GroupMode::Broadcast, &[connected()]);
    group.send(b"A", NOW).unwrap();
    let elsewhere = Leg { next_send_sequence: 90, flight: 1, ..connected() };
    assert_eq!(group.add_member(2, 0, elsewhere), Err(Error::AlignmentFailed));
    assert!(!Error::AlignmentFailed.changes_nothing());
    assert_eq!(state(&group, 2), GroupMemberState::Active);
    assert_eq!(group.send(b"B", NOW), Err(Error::SequenceMismatch));
    assert_eq!(group.sent(), []);
}

#[test]
fn codes_23_24_26_broadcast_sends() {
    let mut group = with_legs(GroupMode::Broadcast, &[Leg { payload_limit: 1, ..connected() }]);
    assert_eq!(group.send(b"AB", NOW), Err(Error::PayloadAboveLimit));
    group.mark_member_broken(1).unwrap();
    assert_eq!(group.send(b"A", NOW), Err(Error::NoActiveMember));
    let mut group = with_legs(GroupMode::Broadcast, &[Leg { window: 0, ..connected() }]);
    assert_eq!(group.send(b"A", NOW), Err(Error::AllBroadcastFailed));
    assert_eq!(state(&group, 1), GroupMemberState::Unstable);
}

#[test]
fn codes_27_and_28_backup_sends() {
    let mut group = with_legs(GroupMode::Backup, &[Leg { window: 0, ..connected() }]);
    assert_eq!(group.send(b"A", NOW), Err(Error::AllBackupFailed));

    let mut group = with_legs(GroupMode::Backup, &[connected(), Leg { window: 3, ..connected() }]);
    for _ in 0..3 {
        group.send(b"A", NOW).unwrap();
    }
    group.mark_member_broken(1).unwrap();
    assert_eq!(group.send(b"B", NOW), Err(Error::ReplayRefused));
    assert_eq!(group.sent(), []);
    assert_eq!(state(&group, 2), GroupMemberState::Active);
    group.read_leg(2, Reading::Window(4)).unwrap();
    assert_eq!(group.send(b"B", NOW), Ok(1));
    assert_eq!(group.sent().len(), 4);
}

#[test]
fn code_29_lists_what_was_replayed() {
    let mut group = with_legs(GroupMode::Backup, &[Leg { window: 2, ..connected() }, Leg { payload_limit: 1, ..connected() }]);
    group.send(b"a", NOW).unwrap();
    group.send(b"b", NOW).unwrap();
    assert_eq!(group.send(b"cc", NOW), Err(Error::PromotionSendFailed));
    let replayed: Vec<_> = group.sent().iter().map(|sent| (sent.member_id(), group.replayed(sent))).collect();
    assert_eq!(replayed, [(2, Some(&b"a"[..])), (2, Some(b"b"))]);
    assert_eq!((state(&group, 1), state(&group, 2)), (GroupMemberState::Unstable, GroupMemberState::Active));
}

#[test]
fn codes_30_and_31_no_room() {
    let mut group = group(GroupMode::Backup, 17);
    group.add_member(1, 0, connected()).unwrap();
    for sequence in 0..16 {
        group.queue_data(1, ReceivedData::new(sequence, b"A")).unwrap();
    }
    assert_eq!(group.queue_data(1, ReceivedData::new(16, b"A")), Err(Error::QueueFull));
    assert_eq!(group.queue_event(1, ConnectionEvent::Connected), Err(Error::QueueFull));
    group.send(b"A", NOW).unwrap();
    assert_eq!(group.queue_data(1, ReceivedData::new(16, b"A")), Err(Error::NoFreeCell));
    assert_eq!(group.send(b"B", NOW), Err(Error::NoFreeCell));
    assert!(group.poll_data(NOW).is_some());
    assert_eq!(group.send(b"B", NOW), Ok(1));
}

#[test]
fn code_32_out_of_turn() {
    let mut group = with_legs(GroupMode::Broadcast, &[connected()]);
    assert_eq!(group.read_leg(1, Reading::State(ConnectionState::Handshaking)), Err(Error::OutOfTurn));
    group.send(b"A", NOW).unwrap();
    assert_eq!(group.read_leg(1, Reading::AcknowledgedUpTo(49)), Err(Error::OutOfTurn));
    assert_eq!(group.read_leg(1, Reading::AcknowledgedUpTo(52)), Err(Error::OutOfTurn));
    assert_eq!(group.read_leg(1, Reading::AcknowledgedUpTo(51)), Ok(()));
}
