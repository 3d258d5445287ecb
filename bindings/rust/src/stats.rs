//! The statistics of a history.

/// The statistics of a history, in the order of its record `tallied`.
#[repr(C)]
#[derive(Clone, Copy, Debug, Default, PartialEq, Eq, Hash)]
pub struct Stats {
    /// Packets that arrived; by their verdicts:
    pub arrivals: u64,
    /// [`Verdict::Enqueue`](crate::Verdict::Enqueue)
    pub enqueued: u64,
    /// [`Verdict::Mark`](crate::Verdict::Mark)
    pub marked: u64,
    /// [`Verdict::Early`](crate::Verdict::Early)
    pub early: u64,
    /// [`Verdict::Bytes`](crate::Verdict::Bytes)
    pub over_bytes: u64,
    /// [`Verdict::Packets`](crate::Verdict::Packets)
    pub over_packets: u64,
    /// Packets that departed.
    pub left: u64,
    /// Their bytes.
    pub left_bytes: u64,
    /// Departures that found no packet.
    pub empty: u64,
    /// Updates.
    pub updates: u64,
    /// Resets.
    pub resets: u64,
    /// Changes of the parameters.
    pub changes: u64,
    /// The most bytes that waited after an event.
    pub largest_queue: u64,
    /// The greatest delay of an update, in ns.
    pub largest_delay: u64,
    /// Sum of the waiting times of packets that departed, in ns: the lower 64 bits.
    pub waited: u64,
    /// The upper 64 bits of that sum.
    pub waited_high: u64,
}
