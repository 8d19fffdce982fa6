//! Segments that go out as one, for a device that cuts it and sums (segmentation offload).
use crate::reports::Transmit;
use crate::{sys, End, EMIT_ROOM};

/// The most bytes that [`End::emit_train`] and [`Connection::poll_transmit_train`](crate::Connection::poll_transmit_train) use: the length of
/// the longest segment in an IPv4 packet.
pub const TRAIN_ROOM: usize = 65_515;

/// Segments that were written as one, which a device cuts: segment i, from 0 on, has the `each` bytes of its text from i * each on, and
/// the last one has the rest.
#[derive(Clone, Copy, Debug, PartialEq, Eq, Hash)]
pub struct Train {
    /// What was written, as one segment: its length is that of its header and of all its text.
    pub whole: Transmit,
    /// The length of its header in bytes with options, which each segment has.
    pub header: usize,
    /// Bytes of text of each segment but the last: 0 where there is no text.
    pub each: usize,
    /// How many segments it is; 1 where there is nothing to cut.
    pub segments: usize,
}

impl Train {
    pub(crate) fn of(told: &sys::Train, whole: Transmit) -> Train {
        Train { whole, header: told.header as usize, each: told.each as usize, segments: told.segments as usize }
    }
}

impl End {
    /// Writes the segments that are due as one, if one is, for a device that cuts it and sums what it has cut: as many of new text as
    /// what is queued and the peer's window allow, `most` of them at most (0 counts as 1), and as `room` has place for, of which no more
    /// than [`TRAIN_ROOM`] bytes are used. Anything else goes alone. The bytes are one segment with all the text, with the sum of
    /// [`End::emit_partial`]. What the device makes of it, with PSH on the last piece alone, is what [`Train::segments`] calls of
    /// [`End::emit`] would have written, and the end is as after them: `tcpcore_emit_train` has the device's own fields.
    ///
    /// ```
    /// # use tcpcore::{Boxed, Config, EMIT_ROOM};
    /// use tcpcore::{Kind, TRAIN_ROOM};
    /// # let (here, there) = ([10, 0, 0, 1], [10, 0, 0, 2]);
    /// # let mut a = Boxed::new(&Config::new(here, 1, 1000))?;
    /// # let mut b = Boxed::new(&Config::new(there, 2, 5000).mss(1000))?;
    /// # b.listen()?;
    /// # a.connect(there, 2)?;
    /// # let mut small = [0; EMIT_ROOM];
    /// # for _ in 0..2 {
    /// #     while let Some((to, segment)) = a.emit(&mut small) {
    /// #         b.arrive(here, to, segment);
    /// #     }
    /// #     while let Some((to, segment)) = b.emit(&mut small) {
    /// #         a.arrive(there, to, segment);
    /// #     }
    /// # }
    ///
    /// a.send(&[7; 2500])?;
    /// let mut room = [0; TRAIN_ROOM];
    /// let (train, bytes) = a.emit_train(&mut room, 64).unwrap();
    /// assert_eq!((train.whole.kind, train.whole.count, train.each, train.segments), (Kind::NewText, 2500, 1000, 3));
    /// assert_eq!((bytes.len(), &bytes[train.header..]), (train.whole.length, &[7; 2500][..]));
    /// assert_eq!(a.emit_train(&mut room, 64), None);
    /// # Ok::<(), tcpcore::Error>(())
    /// ```
    ///
    /// # Panics
    /// Where `room` has fewer than [`EMIT_ROOM`] bytes.
    pub fn emit_train<'r>(&mut self, room: &'r mut [u8], most: usize) -> Option<(Train, &'r [u8])> {
        assert!(room.len() >= EMIT_ROOM, "{} bytes are too few for a segment", room.len());
        let mut told = sys::Train::default();
        // SAFETY: as of the calls of lib.rs.
        let answer = unsafe { sys::tcpcore_emit_train(&mut self.raw, room.as_mut_ptr().cast(), room.len(), most, &mut told) };
        let train = Train::of(&told, Transmit::of(answer, &told.whole)?);
        Some((train, &room[..train.whole.length]))
    }
}
