//! Segments of a connection that go out as one, for a device that cuts it and sums (segmentation offload).
use super::Connection;
use crate::reports::Transmit;
use crate::{sys, Time, Train, EMIT_ROOM};

impl Connection<'_> {
    /// Writes the segments that may go out as one, if one may, for a device that cuts it and sums what it has cut, as
    /// [`End::emit_train`](crate::End::emit_train) writes those of an end: of new text as many as end within `window`, as
    /// [`Connection::poll_transmit_within`] has it, `most` of them at most (0 counts as 1), and as `room` has place for, of which no more
    /// than [`TRAIN_ROOM`](crate::TRAIN_ROOM) bytes are used. Anything else goes alone, also the pending acknowledgement where what is due
    /// waits. With a `most` of 1 it is one segment for a device that sums and doesn't cut. The connection is as after
    /// [`Train::segments`] calls of [`Connection::poll_transmit_within`], timers and all.
    ///
    /// ```
    /// # use tcpcore::{Config, Connection, Kind, Rules, Time, EMIT_ROOM, TRAIN_ROOM};
    /// # let (here, there, now) = ([10, 0, 0, 1], [10, 0, 0, 2], Time::ZERO);
    /// # let mut client = Connection::connect(&Config::new(here, 1, 1000), &Rules::new(), (there, 2), now)?;
    /// # let mut server = Connection::listen(&Config::new(there, 2, 5000).mss(1000), &Rules::new(), now)?;
    /// # let mut small = [0; EMIT_ROOM];
    /// # for _ in 0..2 {
    /// #     while let Some(segment) = client.poll_transmit(now, &mut small) {
    /// #         server.handle_segment(now, here, segment.to, segment.bytes).unwrap();
    /// #     }
    /// #     while let Some(segment) = server.poll_transmit(now, &mut small) {
    /// #         client.handle_segment(now, there, segment.to, segment.bytes).unwrap();
    /// #     }
    /// # }
    /// client.send(now, &[7; 2500])?;
    /// let mut room = [0; TRAIN_ROOM];
    /// let (train, bytes) = client.poll_transmit_train(now, 2000, &mut room, 64).unwrap();
    /// assert_eq!((train.whole.kind, train.whole.count, train.each, train.segments), (Kind::NewText, 2000, 1000, 2));
    /// assert_eq!(&bytes[train.header..], [7; 2000]);
    /// // The rest waits until something is acknowledged.
    /// assert_eq!(client.poll_transmit_train(now, 2000, &mut room, 64), None);
    /// # Ok::<(), tcpcore::Error>(())
    /// ```
    ///
    /// # Panics
    /// Where `room` has fewer than [`EMIT_ROOM`] bytes.
    pub fn poll_transmit_train<'r>(&mut self, now: Time, window: u64, room: &'r mut [u8], most: usize) -> Option<(Train, &'r [u8])> {
        assert!(room.len() >= EMIT_ROOM, "{} bytes are too few for a segment", room.len());
        let (out, mut told) = (room.as_mut_ptr().cast(), sys::Train::default());
        let raw = self.raw.as_ptr();
        // SAFETY: as of the calls of mod.rs.
        let answer = unsafe { sys::tcpcore_connection_emit_train(raw, now.as_micros(), window, out, room.len(), most, &mut told) };
        let train = Train::of(&told, Transmit::of(answer, &told.whole)?);
        Some((train, &room[..train.whole.length]))
    }
}
