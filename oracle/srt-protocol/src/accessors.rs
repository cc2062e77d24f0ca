
/// Appended by the oracle: reading access to private state, and nothing else.
mod accessors {
    use super::*;

    impl SrtGroupMember {
        pub fn peer_group_admitted(&self) -> bool {
            self.peer_group_admitted
        }

        pub fn reserved(&self) -> &BTreeSet<u32> {
            &self.reserved
        }

        pub fn reserved_packets(&self) -> u32 {
            self.reserved_packets
        }
    }

    impl SrtGroup {
        pub fn next_send_sequence(&self) -> Option<u32> {
            self.next_send_sequence
        }

        pub fn next_receive_sequence(&self) -> Option<u32> {
            self.next_receive_sequence
        }

        pub fn pending(&self) -> &BTreeMap<u32, GroupPacket> {
            &self.pending
        }

        pub fn waiting(&self) -> &VecDeque<GroupEvent> {
            &self.events
        }

        pub fn next_event_member(&self) -> usize {
            self.next_event_member
        }

        pub fn collisions(&self) -> &VecDeque<PeerGroupCollision> {
            &self.collisions
        }

        pub fn owned(&self) -> &BTreeSet<u32> {
            &self.owned
        }

        pub fn owned_packets(&self) -> u32 {
            self.owned_packets
        }

        pub fn backup_history(&self) -> &VecDeque<(u32, Bytes, Timestamp)> {
            &self.backup_history
        }

        pub fn backup_carrier(&self) -> Option<u32> {
            self.backup_carrier
        }

        pub fn backup_history_gap(&self) -> bool {
            self.backup_history_gap
        }

        /// Document 01's nearest held packet.
        pub fn nearest(&self) -> Option<u32> {
            self.oldest_pending()
        }

        /// Document 01's give-up test for the nearest held packet.
        pub fn gives_up(&self, now: Timestamp) -> bool {
            self.gap_given_up(now)
        }
    }
}
