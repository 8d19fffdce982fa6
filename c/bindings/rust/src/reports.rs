//! What is reported of a segment that arrives, and of one that goes out.
use crate::answers::Arrival;
use crate::connection::reach_of;
use crate::{sys, Addr, End, EMIT_ROOM};
use core::fmt;

/// The rule that an arrival goes by (RFC 9293, 3.10.7), in the order of their tests. Its `Display` is a text.
#[derive(Clone, Copy, Debug, PartialEq, Eq, Hash)]
pub enum Rule {
    /// For another end, or from another peer.
    Foreign = 1,
    /// A reset that nothing follows from.
    ResetIgnored,
    /// CLOSED: a reset answers it (3.10.7.1).
    Stray,
    /// LISTEN has sent nothing: a reset answers its acknowledgement (3.10.7.2, second).
    AckOfListen,
    /// LISTEN, SYN-SENT: nothing follows from it.
    OpensNothing,
    /// A SYN in LISTEN (3.10.7.2, third).
    PeerOpens,
    /// SYN-SENT: it acknowledges something else than the SYN: a reset answers it (3.10.7.3, first).
    AckOfNoSyn,
    /// A reset answers the SYN (3.10.7.3, second).
    PeerRefuses,
    /// A SYN answers the SYN (3.10.7.3, fourth).
    PeerAccepts,
    /// Outside the window: an acknowledgement answers it (3.10.7.4, first).
    Unacceptable,
    /// A reset at RCV.NXT (3.10.7.4, second).
    PeerResets,
    /// A reset elsewhere in the window: an acknowledgement answers it (3.10.7.4, second).
    ResetElsewhere,
    /// A SYN in the window: an acknowledgement answers it (3.10.7.4, fourth).
    SynInWindow,
    /// It acknowledges nothing, and nothing of it counts (3.10.7.4, fifth).
    NoAck,
    /// It acknowledges what wasn't sent: an acknowledgement answers it (3.10.7.4, fifth).
    AcksUnsent,
    /// SYN-RECEIVED: it acknowledges something else than the SYN: a reset answers it.
    HandshakeRefused,
    /// The same with a window of 0.
    HandshakeRefusedShut,
    /// All of it is taken (3.10.7.4, fifth to eighth).
    Taken,
    /// The window is 0: its acknowledgement, window and blocks are taken, its text and FIN aren't.
    TakenShut,
}

/// In the order of their numbers, from 1 on.
pub(crate) const RULES: [(Rule, &str); 19] = [
    (Rule::Foreign, "for another end, or from another peer"),
    (Rule::ResetIgnored, "a reset that nothing follows from"),
    (Rule::Stray, "there is no connection: a reset answers it"),
    (Rule::AckOfListen, "an acknowledgement in LISTEN: a reset answers it"),
    (Rule::OpensNothing, "nothing follows from it"),
    (Rule::PeerOpens, "a SYN opens the connection"),
    (Rule::AckOfNoSyn, "it acknowledges something else than the SYN: a reset answers it"),
    (Rule::PeerRefuses, "a reset answers the SYN"),
    (Rule::PeerAccepts, "a SYN answers the SYN"),
    (Rule::Unacceptable, "outside the window: an acknowledgement answers it"),
    (Rule::PeerResets, "a reset ends the connection"),
    (Rule::ResetElsewhere, "a reset elsewhere in the window: an acknowledgement answers it"),
    (Rule::SynInWindow, "a SYN in the window: an acknowledgement answers it"),
    (Rule::NoAck, "it acknowledges nothing"),
    (Rule::AcksUnsent, "it acknowledges what wasn't sent: an acknowledgement answers it"),
    (Rule::HandshakeRefused, "it acknowledges something else than the SYN, in SYN-RECEIVED: a reset answers it"),
    (Rule::HandshakeRefusedShut, "it acknowledges something else than the SYN, and the window is 0: a reset answers it"),
    (Rule::Taken, "all of it is taken"),
    (Rule::TakenShut, "its acknowledgement is taken, its text isn't: the window is 0"),
];

impl fmt::Display for Rule {
    fn fmt(&self, f: &mut fmt::Formatter<'_>) -> fmt::Result {
        f.write_str(RULES[*self as usize - 1].1)
    }
}

/// What a segment brought of the peer's stream (RFC 9293, 3.10.7.4, seventh and eighth). Its `Display` is a text.
#[derive(Clone, Copy, Debug, PartialEq, Eq, Hash)]
pub enum Brought {
    /// It has neither text nor a FIN.
    Nothing = 0,
    /// Text or a FIN in order: RCV.NXT was moved.
    InOrder,
    /// Text out of order, which is held until what is missing before it comes.
    Held,
    /// Text or a FIN of which nothing is kept.
    NotKept,
}

pub(crate) const BROUGHT: [(Brought, &str); 4] = [
    (Brought::Nothing, "neither text nor a FIN"),
    (Brought::InOrder, "text or a FIN in order"),
    (Brought::Held, "text out of order, which is held"),
    (Brought::NotKept, "text or a FIN of which nothing is kept"),
];

impl fmt::Display for Brought {
    fn fmt(&self, f: &mut fmt::Formatter<'_>) -> fmt::Result {
        f.write_str(BROUGHT[*self as usize].1)
    }
}

/// What became of a segment that arrived, and what it is to the end.
#[derive(Clone, Copy, Debug, PartialEq, Eq, Hash)]
pub struct ArriveReport {
    /// What became of it.
    pub arrival: Arrival,
    /// Whether it has to be answered at once (RFC 5681, 4.2), by emitting what is due.
    pub at_once: bool,
    /// The rule that applied; none where the bytes are no segment.
    pub rule: Option<Rule>,
    /// Bytes of text that its acknowledgement released; SYN and FIN aren't counted.
    pub acked: u64,
    /// What it brought of the peer's stream.
    pub brought: Brought,
    /// Whether it is a duplicate acknowledgement (RFC 5681, 2): text was in flight, it has no text, no SYN and no FIN, it acknowledges
    /// up to SND.UNA, and its window is SND.WND.
    pub is_duplicate: bool,
    /// Whether SND.WND was taken from it (RFC 9293, 3.10.7.4, fifth).
    pub window_taken: bool,
}

impl ArriveReport {
    pub(crate) fn of(answer: u32, told: &sys::ArriveReport) -> ArriveReport {
        let place = (told.rule as usize).checked_sub(1);
        ArriveReport {
            arrival: Arrival::of(answer),
            at_once: told.at_once == 1,
            rule: place.map(|it| RULES[it].0),
            acked: told.acked,
            brought: BROUGHT[told.brought as usize].0,
            is_duplicate: told.is_duplicate == 1,
            window_taken: told.window_taken == 1,
        }
    }
}

/// What a segment is that an end emits. Its `Display` is a text.
#[derive(Clone, Copy, Debug, PartialEq, Eq, Hash)]
pub enum Kind {
    /// A reset.
    Reset = 1,
    /// For the first time or again, with an acknowledgement once the peer's was taken.
    Syn,
    /// Text for the first time, also a byte that probes a window of 0 (RFC 9293, 3.8.6.1).
    NewText,
    /// Text that is retransmitted (RFC 9293, 3.8.1).
    TextAgain,
    /// The FIN for the first time.
    Fin,
    /// The FIN, retransmitted.
    FinAgain,
    /// An acknowledgement without text.
    Acknowledgement,
}

/// In the order of their numbers, from 1 on.
pub(crate) const KINDS: [(Kind, &str); 7] = [
    (Kind::Reset, "a reset"),
    (Kind::Syn, "a SYN"),
    (Kind::NewText, "new text"),
    (Kind::TextAgain, "text again"),
    (Kind::Fin, "a FIN"),
    (Kind::FinAgain, "a FIN again"),
    (Kind::Acknowledgement, "an acknowledgement"),
];

impl fmt::Display for Kind {
    fn fmt(&self, f: &mut fmt::Formatter<'_>) -> fmt::Result {
        f.write_str(KINDS[*self as usize - 1].1)
    }
}

/// A segment that was emitted, or would be.
#[derive(Clone, Copy, Debug, PartialEq, Eq, Hash)]
pub struct Transmit {
    /// The address that it goes to.
    pub to: Addr,
    /// What it is.
    pub kind: Kind,
    /// Its length in bytes, with its header.
    pub length: usize,
    /// Where it begins, as a position of the own direction: a SYN at 0, byte i at 1 + i, the FIN after the last byte, an
    /// acknowledgement at SND.NXT; 0 of a reset.
    pub position: u64,
    /// Bytes of its text.
    pub count: usize,
}

impl Transmit {
    /// Of an answer that says that a segment is due.
    pub(crate) fn of(answer: u32, told: &sys::Transmit) -> Option<Transmit> {
        (answer == 0).then(|| Transmit {
            to: told.to.byte,
            kind: KINDS[told.kind as usize - 1].0,
            length: told.length as usize,
            position: told.position,
            count: told.count as usize,
        })
    }
}

impl End {
    /// As [`End::arrive`], and reports more: the rule that applied, the text that was acknowledged, what the segment brought, whether it
    /// is a duplicate acknowledgement, and whether its window was taken.
    ///
    /// ```
    /// use tcpcore::{Arrival, Boxed, Config, Rule, EMIT_ROOM};
    ///
    /// let (here, there) = ([10, 0, 0, 1], [10, 0, 0, 2]);
    /// let mut a = Boxed::new(&Config::new(here, 1, 1000))?;
    /// let mut b = Boxed::new(&Config::new(there, 2, 5000))?;
    /// b.listen()?;
    /// a.connect(there, 2)?;
    /// let mut room = [0; EMIT_ROOM];
    /// let (to, syn) = a.emit(&mut room).unwrap();
    /// let taken = b.arrive_with_report(here, to, syn);
    /// assert_eq!((taken.arrival, taken.at_once, taken.rule), (Arrival::Taken, true, Some(Rule::PeerOpens)));
    /// assert_eq!(taken.rule.unwrap().to_string(), "a SYN opens the connection");
    /// # Ok::<(), tcpcore::Error>(())
    /// ```
    pub fn arrive_with_report(&mut self, src: Addr, dst: Addr, segment: &[u8]) -> ArriveReport {
        let (src, dst, mut told) = (sys::Addr { byte: src }, sys::Addr { byte: dst }, sys::ArriveReport::default());
        // SAFETY: here and below: as of the calls of lib.rs.
        let answer = unsafe { sys::tcpcore_arrive_with_report(&mut self.raw, src, dst, segment.as_ptr().cast(), segment.len(), &mut told) };
        ArriveReport::of(answer, &told)
    }

    /// As [`End::arrive_with_report`], of a segment whose checksum a device has found right: it isn't summed. Report and end are those of the same
    /// bytes with the right checksum, whatever the bytes are: drop what the device found wrong.
    pub fn arrive_vouched_with_report(&mut self, src: Addr, dst: Addr, segment: &[u8]) -> ArriveReport {
        let (src, dst, mut told) = (sys::Addr { byte: src }, sys::Addr { byte: dst }, sys::ArriveReport::default());
        let answer =
            unsafe { sys::tcpcore_arrive_vouched_with_report(&mut self.raw, src, dst, segment.as_ptr().cast(), segment.len(), &mut told) };
        ArriveReport::of(answer, &told)
    }

    /// As [`End::arrive`], of a segment whose checksum a device has found right, as [`End::arrive_vouched_with_report`].
    ///
    /// ```
    /// # use tcpcore::{Arrival, Boxed, Config, Malformed, EMIT_ROOM};
    /// # let (here, there) = ([10, 0, 0, 1], [10, 0, 0, 2]);
    /// # let mut a = Boxed::new(&Config::new(here, 1, 1000))?;
    /// # let mut b = Boxed::new(&Config::new(there, 2, 5000))?;
    /// # b.listen()?;
    /// # a.connect(there, 2)?;
    /// # let mut room = [0; EMIT_ROOM];
    /// let mut syn = a.emit(&mut room).unwrap().1.to_vec();
    /// syn[16] ^= 1;
    /// assert_eq!(b.arrive(here, there, &syn), (Arrival::Malformed(Malformed::BadChecksum), false));
    /// assert_eq!(b.arrive_vouched(here, there, &syn), (Arrival::Taken, true));
    /// # Ok::<(), tcpcore::Error>(())
    /// ```
    pub fn arrive_vouched(&mut self, src: Addr, dst: Addr, segment: &[u8]) -> (Arrival, bool) {
        let taken = self.arrive_vouched_with_report(src, dst, segment);
        (taken.arrival, taken.at_once)
    }

    /// As [`End::arrive_with_report`], past a guard against segments of somebody who sees nothing of the connection (RFC 5961, 5.2), as
    /// [`Rules::guard`](crate::Rules::guard) has it: `None` is no guard. A segment for which a device vouches isn't summed. What the guard
    /// keeps out is passed over, and an acknowledgement is due.
    pub fn arrive_by(&mut self, src: Addr, dst: Addr, segment: &[u8], guard: Option<u32>, is_vouched: bool) -> ArriveReport {
        let (src, dst, mut told) = (sys::Addr { byte: src }, sys::Addr { byte: dst }, sys::ArriveReport::default());
        let intake = sys::Intake { guard: reach_of(guard), is_vouched: is_vouched.into(), ..Default::default() };
        let (bytes, length) = (segment.as_ptr().cast(), segment.len());
        let answer = unsafe { sys::tcpcore_arrive_by(&mut self.raw, src, dst, bytes, length, &intake, &mut told) };
        ArriveReport::of(answer, &told)
    }

    /// As [`End::emit`]: the same bytes, and the same end behind it. Reports what the segment is, where it begins, and how much text it
    /// has, beside where it goes.
    ///
    /// ```
    /// # use tcpcore::{Boxed, Config, EMIT_ROOM};
    /// use tcpcore::{Kind, Transmit};
    /// # let mut end = Boxed::new(&Config::new([10, 0, 0, 1], 1, 1000))?;
    ///
    /// end.connect([10, 0, 0, 2], 2)?;
    /// let next = end.next_transmit();
    /// let mut room = [0; EMIT_ROOM];
    /// let (sent, segment) = end.transmit(&mut room).unwrap();
    /// assert_eq!(sent, Transmit { to: [10, 0, 0, 2], kind: Kind::Syn, length: segment.len(), position: 0, count: 0 });
    /// assert_eq!(next, Some(sent));
    /// # Ok::<(), tcpcore::Error>(())
    /// ```
    pub fn transmit<'r>(&mut self, room: &'r mut [u8; EMIT_ROOM]) -> Option<(Transmit, &'r [u8])> {
        let mut told = sys::Transmit::default();
        let answer = unsafe { sys::tcpcore_transmit(&mut self.raw, room.as_mut_ptr().cast(), EMIT_ROOM, &mut told) };
        Transmit::of(answer, &told).map(|it| (it, &room[..it.length]))
    }

    /// What [`End::transmit`] would report now, if a segment is due; none is written (`tcpcore_next`).
    pub fn next_transmit(&self) -> Option<Transmit> {
        let mut told = sys::Transmit::default();
        let answer = unsafe { sys::tcpcore_next(&self.raw, &mut told) };
        Transmit::of(answer, &told)
    }
}
