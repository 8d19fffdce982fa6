//! The wire between the two sides.
use kit_text::LineError;
use std::alloc::Global;
use tcp_wire::Addr;

/// A segment on its way.
#[derive(Debug, Drop)]
pub(crate) struct Packet {
    /// When it comes.
    pub(crate) at: u64,
    /// The number of the side that emitted it.
    pub(crate) from: u8,
    /// Its bytes.
    pub(crate) bytes: Vec<u8>,
}

/// What becomes of some of a side's emissions.
#[derive(Clone, Copy, Debug)]
pub(crate) struct Fate {
    /// The number of the side.
    pub(crate) from: u8,
    /// The first of the emissions, from 0 on.
    pub(crate) first: u64,
    /// How many they are.
    pub(crate) count: u64,
    /// How much later they come; `None` where they are lost.
    pub(crate) later: Option<u64>,
}

/// A wire, both ways.
#[derive(Debug, Drop)]
pub(crate) struct Wire {
    pub(crate) alloc: Global,
    /// How long a way takes.
    pub(crate) way: u64,
    /// How much both sides have in flight at most, as congestion control would say.
    pub(crate) window: u64,
    /// What is on its way, in the order in which it was emitted.
    pub(crate) packets: Vec<Packet>,
    /// What becomes of some emissions.
    pub(crate) fates: Vec<Fate>,
}

/// The address of a side.
pub(crate) fn addr(number: u8) -> Addr {
    Addr([10, 0, 0, number])
}

impl Wire {
    /// With nothing on it.
    pub(crate) fn new(alloc: Global, way: u64) -> Wire {
        Wire {
            alloc,
            way,
            window: u64::MAX,
            packets: Vec::new(alloc),
            fates: Vec::new(alloc),
        }
    }

    /// When a side's emission of this number comes that goes out now; `None` where it is lost.
    fn arrival(&self, now: u64, from: u8, number: u64) -> Option<u64> {
        let mut at = now.saturating_add(self.way);
        for fate in &self.fates {
            let is_behind = number >= fate.first && number - fate.first < fate.count;
            if is_behind && fate.from == from {
                at = at.saturating_add(fate.later?);
            }
        }
        Some(at)
    }

    /// A segment goes out, a side's emission of this number. Answers whether it is lost.
    pub(crate) fn put(
        &mut self,
        now: u64,
        from: u8,
        number: u64,
        bytes: &[u8],
    ) -> Result<bool, LineError> {
        let Some(at) = self.arrival(now, from, number) else {
            return Ok(true);
        };
        let bytes = bytes.to_vec(self.alloc)?;
        match self.packets.push(Packet { at, from, bytes }) {
            Ok(()) => Ok(false),
            Err(_) => Err(LineError::NoMemory),
        }
    }

    /// What becomes of some emissions.
    pub(crate) fn add_fate(&mut self, fate: Fate) -> Result<(), LineError> {
        match self.fates.push(fate) {
            Ok(()) => Ok(()),
            Err(_) => Err(LineError::NoMemory),
        }
    }

    /// When the next segment comes, if one is on its way.
    pub(crate) fn next_arrival(&self) -> Option<u64> {
        let mut next = None;
        for packet in &self.packets {
            next = earlier(next, Some(packet.at));
        }
        next
    }

    /// Takes the segment off that has come and was emitted first.
    pub(crate) fn come(&mut self, now: u64) -> Option<Packet> {
        for i in 0..self.packets.len() {
            if self.packets[i].at <= now {
                return Some(self.packets.remove(i));
            }
        }
        None
    }
}

/// The earlier of two times.
pub(crate) fn earlier(one: Option<u64>, other: Option<u64>) -> Option<u64> {
    match (one, other) {
        (Some(one), Some(other)) => Some(one.min(other)),
        (None, time) | (time, None) => time,
    }
}
