//! The crate as a host uses it: a loss and a skip, a take-over in Backup, removals, events, and each refusal.
use srt_group::{ConnectionEvent, ConnectionState, Error, Group, GroupDataPoll, GroupEvent, GroupMemberState, GroupMode, GroupPacket};
use srt_group::{Leg, Reading, ReceivedData, Timestamp};

const ID: u32 = 0x4000_0001;

fn group(mode: GroupMode) -> Group {
    Group::new(ID, mode, 40).expect("a group")
}

/// A connected leg whose next send is 50 and whose peer begins at 100.
fn connected() -> Leg {
    Leg {
        state: ConnectionState::Connected,
        next_send_sequence: 50,
        window: 8,
        peer_initial_sequence: Some(100),
        latency: 500,
        ..Leg::default()
    }
}

fn data(sequence: u32, payload: &[u8]) -> ReceivedData<'_> {
    ReceivedData { source_time: Timestamp(1_000), ..ReceivedData::new(sequence, payload) }
}

fn states(group: &Group) -> Vec<(u32, GroupMemberState)> {
    group.members().map(|member| (member.id, member.state)).collect()
}

/// Member, sequence and whether it is a replay, of each send of the last call.
fn sends(group: &Group) -> Vec<(u32, u32, bool)> {
    group.sent().iter().map(|sent| (sent.member_id(), sent.sequence_number(), sent.history_cell().is_some())).collect()
}

#[test]
fn a_loss_is_skipped_at_the_moment_of_giving_up() {
    let mut group = group(GroupMode::Broadcast);
    group.add_member(7, 0, connected()).unwrap();
    group.queue_data(7, data(101, b"A")).unwrap();
    assert_eq!(group.poll_data(Timestamp(1_499)), None);
    assert!(group.has_pending_data());
    let packet = group.poll_data(Timestamp(1_500));
    let expected = GroupPacket {
        member_id: 7,
        sequence_number: 101,
        message_number: 0,
        timestamp: 0,
        source_time: Timestamp(1_000),
        packet_count: 1,
        payload: b"A".to_vec(),
    };
    assert_eq!(packet, Some(expected));
    assert_eq!(group.skipped_receive_packets(), 1);
    assert!(!group.has_pending_data());
}

#[test]
fn another_leg_fills_the_gap() {
    let mut group = group(GroupMode::Broadcast);
    group.add_member(7, 0, connected()).unwrap();
    group.add_member(8, 0, connected()).unwrap();
    group.queue_data(7, data(101, b"later")).unwrap();
    group.queue_data(8, data(100, b"first")).unwrap();
    // The first poll stops at the packet that is held behind the gap.
    let payloads: Vec<_> = (0..4).map(|_| group.poll_data(Timestamp(1_100)).map(|packet| packet.payload)).collect();
    assert_eq!(payloads, [None, Some(b"first".to_vec()), Some(b"later".to_vec()), None]);
    assert_eq!(group.skipped_receive_packets(), 0);
}

#[test]
fn a_payload_is_written_from_byte_12_of_the_hosts_buffer() {
    let mut group = group(GroupMode::Broadcast);
    group.add_member(7, 0, connected()).unwrap();
    group.queue_data(7, data(100, b"payload")).unwrap();
    let mut short = [0xee; Group::OUTPUT - 1];
    assert_eq!(group.poll_data_into(Timestamp(0), &mut short), Err(Error::InsufficientBuffer));
    let mut output = [0xee; Group::OUTPUT + 1];
    let packet = group.poll_data_into(Timestamp(0), &mut output).unwrap().expect("a packet");
    assert_eq!(packet.payload, 12..19);
    assert_eq!(&output[packet.payload], b"payload");
    assert!(output[..12].iter().chain(&output[19..]).all(|&byte| byte == 0xee));
    assert_eq!(group.poll_data_into(Timestamp(0), &mut output), Ok(None));
}

#[test]
fn a_packet_comes_out_as_it_was_queued() {
    let mut group = group(GroupMode::Broadcast);
    group.add_member(7, 0, connected()).unwrap();
    let queued = ReceivedData {
        sequence_number: 100,
        packet_count: 2,
        message_number: 3,
        timestamp: u32::MAX,
        source_time: Timestamp(u64::MAX),
        payload: &[0xab; Group::CELL],
    };
    group.queue_data(7, queued).unwrap();
    let expected = GroupPacket {
        member_id: 7,
        sequence_number: 100,
        message_number: 3,
        timestamp: u32::MAX,
        source_time: Timestamp(u64::MAX),
        packet_count: 2,
        payload: vec![0xab; Group::CELL],
    };
    assert_eq!(group.poll_data(Timestamp(0)), Some(expected));
    assert_eq!(group.remove_member_connection(7).unwrap().advanced, 102);
}

#[test]
fn a_data_poll_passes_events() {
    let mut group = group(GroupMode::Broadcast);
    group.add_member(7, 0, connected()).unwrap();
    for _ in 0..3 {
        group.queue_event(7, ConnectionEvent::Connected).unwrap();
    }
    group.queue_data(7, data(100, b"payload")).unwrap();
    let mut other = group.clone();
    assert_eq!(other.poll_data_bounded(Timestamp(0), 2), GroupDataPoll { packet: None, continuation: true });
    assert_eq!(group.poll_data(Timestamp(0)).map(|packet| packet.sequence_number), Some(100));
}

#[test]
fn a_bounded_poll_gives_nothing_with_no_visit() {
    let mut group = group(GroupMode::Broadcast);
    group.add_member(7, 0, connected()).unwrap();
    group.queue_data(7, data(100, b"payload")).unwrap();
    assert_eq!(group.poll_data_bounded(Timestamp(0), 0).packet, None);
    let polled = group.poll_data_bounded(Timestamp(0), 1);
    assert_eq!(polled.packet.map(|packet| packet.sequence_number), Some(100));
    assert!(!polled.continuation);
}

#[test]
fn events_and_packets_are_polled_in_turn() {
    let mut group = group(GroupMode::Broadcast);
    group.add_member(7, 0, connected()).unwrap();
    group.add_member(8, 0, Leg { state: ConnectionState::Handshaking, ..connected() }).unwrap();
    group.queue_event(8, ConnectionEvent::Connected).unwrap();
    group.queue_event(8, ConnectionEvent::Disconnected { reason: 5 }).unwrap();
    group.queue_event(7, ConnectionEvent::Error { reason: u32::MAX }).unwrap();
    group.queue_data(7, data(100, b"payload")).unwrap();
    let events: Vec<_> = std::iter::from_fn(|| group.poll_event(Timestamp(0))).collect();
    // The legs take turns.
    assert_eq!(events[..2], [GroupEvent::MemberError { member_id: 7, reason: u32::MAX }, GroupEvent::MemberConnected { member_id: 8 }]);
    assert!(matches!(&events[2], GroupEvent::DataReceived(packet) if packet.member_id == 7 && packet.payload == b"payload"));
    assert_eq!(events[3..], [GroupEvent::MemberDisconnected { member_id: 8, reason: 5 }]);
    assert_eq!(states(&group), [(7, GroupMemberState::Broken), (8, GroupMemberState::Broken)]);

    group.queue_data(7, data(101, b"more")).unwrap();
    let mut output = [0; Group::OUTPUT];
    assert_eq!(group.poll_event_into(Timestamp(0), &mut output[1..]), Err(Error::InsufficientBuffer));
    let Ok(Some(GroupEvent::DataReceived(packet))) = group.poll_event_into(Timestamp(0), &mut output) else { panic!("a packet") };
    assert_eq!(&output[packet.payload], b"more");
}

#[test]
fn a_silent_carrier_is_taken_over_and_its_flight_replayed() {
    let mut group = group(GroupMode::Backup);
    group.add_member(1, 10, connected()).unwrap();
    group.add_member(2, 5, connected()).unwrap();
    assert_eq!(states(&group), [(1, GroupMemberState::Active), (2, GroupMemberState::Standby)]);
    assert_eq!(group.send(b"first", Timestamp(0)), Ok(1));
    assert_eq!(group.send(b"second", Timestamp(1_000)), Ok(1));
    assert_eq!(sends(&group), [(1, 51, false)]);
    assert_eq!(group.backup_stability_timeout_micros(1), Ok(Some(60_000)));

    assert_eq!(group.send(b"third", Timestamp(60_001)), Ok(1));
    assert_eq!(states(&group), [(1, GroupMemberState::Unstable), (2, GroupMemberState::Active)]);
    assert_eq!(sends(&group), [(2, 50, true), (2, 51, true), (2, 52, false)]);
    let replayed: Vec<_> = group.sent().iter().map(|sent| group.replayed(sent)).collect();
    assert_eq!(replayed, [Some(&b"first"[..]), Some(b"second"), None]);
    let times: Vec<_> = group.sent().iter().map(|sent| (sent.source_time(), sent.time())).collect();
    assert_eq!(times, [(Timestamp(0), Timestamp(60_001)), (Timestamp(1_000), Timestamp(60_001)), (Timestamp(60_001), Timestamp(60_001))]);

    // The list is that of the last call.
    assert!(group.can_send());
    assert_eq!(group.sent(), []);
}

/// With 512 sends in flight the history is full: the send that replays them pushes the oldest out, and its bytes can still be had.
#[test]
fn a_replay_of_a_full_history_has_all_its_bytes() {
    let mut group = Group::new(ID, GroupMode::Backup, 600).unwrap();
    group.add_member(1, 0, Leg { window: 600, ..connected() }).unwrap();
    group.add_member(2, 0, Leg { window: 600, ..connected() }).unwrap();
    for i in 0..Group::MAX_HISTORY {
        let payload = vec![i as u8; 1 + i % 7];
        group.send(&payload, Timestamp(0)).unwrap();
    }
    group.mark_member_broken(1).unwrap();
    group.send(b"own", Timestamp(1)).unwrap();
    assert_eq!(group.sent().len(), Group::MAX_HISTORY + 1);
    for (i, sent) in group.sent()[..Group::MAX_HISTORY].iter().enumerate() {
        assert_eq!(group.replayed(sent), Some(&vec![i as u8; 1 + i % 7][..]), "send {i}");
    }
    assert_eq!(group.replayed(&group.sent()[Group::MAX_HISTORY]), None);
}

#[test]
fn a_removed_leg_is_given_back_and_added_again() {
    let mut group = group(GroupMode::Broadcast);
    let handed = Leg {
        srtt: 1,
        rttvar: 2,
        last_heard: Timestamp(3),
        oldest_send_time: Timestamp(4),
        pace_time: Timestamp(5),
        payload_limit: 1_000,
        receive_window: 6,
        peer_group_id: std::num::NonZeroU32::new(0x4000_0009),
        flight: 2,
        ..connected()
    };
    group.add_member(7, 3, handed).unwrap();
    assert_eq!(group.peer_group_id().map(u32::from), Some(0x4000_0009));
    group.queue_data(7, data(101, b"held")).unwrap();
    assert_eq!(group.poll_data(Timestamp(0)), None);
    let member = group.member(7).unwrap();
    assert_eq!((member.weight, member.reserved_packets, member.peer_group_admitted), (3, 1, true));
    group.queue_data(7, data(102, b"dropped with the queue")).unwrap();

    let given = group.remove_member_connection(7).unwrap();
    assert_eq!(given, Leg { has_sender: true, ..handed });
    assert_eq!(group.members().len(), 0);
    group.add_member(9, 0, given).unwrap();
    let member = group.member(9).unwrap();
    assert_eq!((member.weight, member.state, member.reserved_packets), (0, GroupMemberState::Active, 0));

    // The group held the packet itself; 100 is given up by the first leg that there is.
    assert_eq!(group.poll_data(Timestamp(1_500)).map(|packet| (packet.member_id, packet.payload)), Some((7, b"held".to_vec())));
    assert_eq!(group.poll_data(Timestamp(1_500)), None);
    assert_eq!(group.remove_member(9), Ok(()));
    assert_eq!(group.remove_member(9), Err(Error::UnknownMember));
}

#[test]
fn a_collision_stays_at_its_member() {
    let mut group = group(GroupMode::Broadcast);
    let naming = |peer| Leg { peer_group_id: std::num::NonZeroU32::new(peer), ..connected() };
    group.add_member(7, 0, naming(0x4000_0009)).unwrap();
    group.add_member(8, 0, naming(0x4000_000a)).unwrap();
    let member = group.member(8).unwrap();
    assert_eq!(member.state, GroupMemberState::Broken);
    let collision = member.collision.expect("a collision");
    assert_eq!((collision.expected_peer_group_id, collision.actual_peer_group_id), (0x4000_0009, 0x4000_000a));
    assert_eq!(group.member(7).unwrap().collision, None);
}

#[test]
fn a_clone_goes_its_own_way() {
    let mut group = group(GroupMode::Broadcast);
    group.add_member(7, 0, connected()).unwrap();
    group.queue_data(7, data(100, b"A")).unwrap();
    let mut other = group.clone();
    assert_eq!(other.poll_data(Timestamp(0)).map(|packet| packet.payload), Some(b"A".to_vec()));
    other.remove_member(7).unwrap();
    assert_eq!(group.poll_data(Timestamp(0)).map(|packet| packet.payload), Some(b"A".to_vec()));
    assert_eq!(group.members().len(), 1);
}

#[test]
fn a_group_goes_to_another_thread() {
    let mut group = group(GroupMode::Broadcast);
    group.add_member(7, 0, connected()).unwrap();
    let sent = std::thread::spawn(move || group.send(b"A", Timestamp(0))).join().unwrap();
    assert_eq!(sent, Ok(1));
}

#[test]
fn readings_reach_the_leg() {
    let mut group = group(GroupMode::Broadcast);
    group.add_member(7, 0, Leg { state: ConnectionState::Handshaking, ..connected() }).unwrap();
    assert_eq!(group.backup_stability_timeout_micros(7), Ok(None));
    assert!(!group.can_send());
    let peer = std::num::NonZeroU32::new(9);
    for reading in [
        Reading::State(ConnectionState::Connected),
        Reading::Window(1),
        Reading::ReceiveWindow(2),
        Reading::Latency(3),
        Reading::Srtt(40_000),
        Reading::Rttvar(5),
        Reading::LastHeard(Timestamp(6)),
        Reading::PaceTime(Timestamp(7)),
        Reading::PeerGroupId(peer),
        Reading::PayloadLimit(8),
        Reading::OldestSendTime(Timestamp(9)),
    ] {
        group.read_leg(7, reading).unwrap();
    }
    assert_eq!(group.backup_stability_timeout_micros(7), Ok(Some(80_020)));
    assert!(group.can_send() && !group.can_send_with_pacing(Timestamp(6)) && group.can_send_with_pacing(Timestamp(7)));
    assert_eq!(group.time_until_send(Timestamp(5)), 2);
    group.send(b"A", Timestamp(10)).unwrap();
    group.read_leg(7, Reading::AcknowledgedUpTo(51)).unwrap();
    let expected = Leg {
        state: ConnectionState::Connected,
        peer_group_id: peer,
        payload_limit: 8,
        srtt: 40_000,
        rttvar: 5,
        last_heard: Timestamp(6),
        has_sender: true,
        next_send_sequence: 51,
        flight: 0,
        window: 1,
        oldest_send_time: Timestamp(10),
        pace_time: Timestamp(7),
        peer_initial_sequence: Some(100),
        receive_window: 2,
        latency: 3,
        advanced: 0,
    };
    assert_eq!(group.remove_member_connection(7), Ok(expected));
}

#[test]
fn disconnected_legs_hold_nothing_back() {
    let mut group = group(GroupMode::Broadcast);
    group.add_member(7, 0, Leg { latency: 0, ..connected() }).unwrap();
    group.queue_data(7, data(105, b"A")).unwrap();
    assert_eq!(group.poll_data(Timestamp(u64::MAX)), None);
    group.disconnect(Timestamp(0));
    group.refresh_member_states();
    assert_eq!(group.member(7).unwrap().connection, ConnectionState::Disconnected);
    assert_eq!(group.poll_data(Timestamp(0)).map(|packet| packet.sequence_number), Some(105));
    assert_eq!(group.skipped_receive_packets(), 5);
}
