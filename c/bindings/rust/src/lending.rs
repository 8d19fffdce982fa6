//! What an end lends where it lies in its block: unread bytes, and the text of a segment that is due.
use crate::answers::{done, Error};
use crate::{sys, Addr, End};
use core::slice;

/// The room that [`End::parts`] takes, in bytes: the length of the longest header, options and all (RFC 9293, 3.1).
pub const HEADER_ROOM: usize = 60;

/// The unread bytes, where they lie in the end's block: all of `first`, then all of `second`. They are borrowed from the end: no call
/// that changes it can come before their last use.
///
/// ```compile_fail,E0502
/// # let mut end = tcpcore::Boxed::new(&tcpcore::Config::new([10, 0, 0, 1], 1, 1000)).unwrap();
/// let lent = end.peek().unwrap();
/// end.consume(1).unwrap();
/// assert_eq!(lent.first, b"abc");
/// ```
#[derive(Clone, Copy, Debug, Default)]
pub struct Lent<'e> {
    /// The first of them; it is empty only where none is unread.
    pub first: &'e [u8],
    /// Those after it.
    pub second: &'e [u8],
    /// Whether the peer has closed, so that none comes after these: where none is unread this is the end of the stream.
    pub ends: bool,
}

impl<'e> Lent<'e> {
    /// Of an answer and what it lends.
    ///
    /// # Safety
    /// As of [`bytes`].
    pub(crate) unsafe fn of(answer: u32, told: &sys::Lent) -> Result<Lent<'e>, Error> {
        match answer {
            0 => Ok(unsafe { Lent { first: bytes(&told.first), second: bytes(&told.second), ends: told.ends == 1 } }),
            51 => Ok(Lent::default()),
            52 => Ok(Lent { ends: true, ..Lent::default() }),
            answer => Err(Error::of(answer)),
        }
    }

    /// How many bytes are unread.
    pub fn len(&self) -> usize {
        self.first.len() + self.second.len()
    }

    /// Whether none is.
    pub fn is_empty(&self) -> bool {
        self.first.is_empty()
    }
}

/// A segment that is due, in parts: its header, which was written, then all of `first`, then all of `second`, which lie in the end's
/// block. They are borrowed from the end: no call that changes it can come before their last use.
///
/// ```compile_fail,E0502
/// # let mut end = tcpcore::Boxed::new(&tcpcore::Config::new([10, 0, 0, 1], 1, 1000)).unwrap();
/// let mut header = [0; tcpcore::HEADER_ROOM];
/// let parts = end.parts(&mut header).unwrap();
/// end.sent();
/// assert_eq!(parts.first, b"abc");
/// ```
#[derive(Clone, Copy, Debug)]
pub struct Parts<'p> {
    /// The address that it goes to.
    pub to: Addr,
    /// Its header, options and all.
    pub header: &'p [u8],
    /// Its text; it is empty only where there is none.
    pub first: &'p [u8],
    /// The text after it.
    pub second: &'p [u8],
}

/// # Safety
/// The bytes were lent by an end that nothing changes for as long as the slice is used.
unsafe fn bytes<'e>(piece: &sys::Piece) -> &'e [u8] {
    if piece.length == 0 {
        return &[];
    }
    unsafe { slice::from_raw_parts(piece.at.cast(), piece.length) }
}

impl End {
    /// Lends all unread bytes where they lie, for a user who reads them there: no copy is made (RFC 9293, 3.10.3). What was read is
    /// taken away by [`End::consume`].
    ///
    /// ```
    /// # use tcpcore::{Boxed, Config, EMIT_ROOM};
    /// # let (here, there) = ([10, 0, 0, 1], [10, 0, 0, 2]);
    /// # let mut peer = Boxed::new(&Config::new(here, 1, 1000))?;
    /// # let mut end = Boxed::new(&Config::new(there, 2, 5000))?;
    /// # end.listen()?;
    /// # peer.connect(there, 2)?;
    /// # let mut room = [0; EMIT_ROOM];
    /// # for turn in 0..3 {
    /// #     while let Some((to, segment)) = peer.emit(&mut room) {
    /// #         end.arrive(here, to, segment);
    /// #     }
    /// #     while let Some((to, segment)) = end.emit(&mut room) {
    /// #         peer.arrive(there, to, segment);
    /// #     }
    /// #     if turn == 0 {
    /// #         peer.send(b"a line\nand more")?;
    /// #     }
    /// # }
    /// let lent = end.peek()?;
    /// let line = lent.first.iter().chain(lent.second).position(|&byte| byte == b'\n').unwrap();
    /// assert_eq!((lent.first, lent.len(), lent.ends), (&b"a line\nand more"[..], 15, false));
    /// assert_eq!(end.consume(line + 1)?, 7);
    /// assert_eq!(end.peek()?.first, b"and more");
    /// # Ok::<(), tcpcore::Error>(())
    /// ```
    ///
    /// # Errors
    /// As of [`End::receive`].
    pub fn peek(&self) -> Result<Lent<'_>, Error> {
        let mut told = sys::Lent::default();
        // SAFETY: as of the calls of lib.rs; nothing changes the end while it is borrowed.
        unsafe { Lent::of(sys::tcpcore_peek(&self.raw, &mut told), &told) }
    }

    /// Takes the first unread bytes away, at most so many, and answers how many: 0 where nothing is unread, whether or not more may come.
    /// The end is then as after an [`End::receive`] into a buffer of that length, the window and an acknowledgement that is due included.
    ///
    /// # Errors
    /// As of [`End::receive`].
    pub fn consume(&mut self, count: usize) -> Result<usize, Error> {
        let mut taken = 0;
        // SAFETY: as of the calls of lib.rs.
        done(unsafe { sys::tcpcore_consume(&mut self.raw, count, &mut taken) })?;
        Ok(taken)
    }

    /// Writes the header of the segment that is due, if one is, to the front of `header`, checksum and all, and lends its text where it
    /// lies: together they are what [`End::emit`] would write, for a gathering write such as `write_vectored`. Nothing changes in the
    /// end: once the segment has gone out, [`End::sent`] says so.
    ///
    /// ```
    /// use std::io::IoSlice;
    /// use tcpcore::HEADER_ROOM;
    /// # use std::io::Write;
    /// # use tcpcore::{Boxed, Config, EMIT_ROOM};
    /// # let mut device = Vec::new();
    /// # let mut end = Boxed::new(&Config::new([10, 0, 0, 1], 1, 1000))?;
    /// # end.connect([10, 0, 0, 2], 2)?;
    ///
    /// let mut header = [0; HEADER_ROOM];
    /// while let Some(parts) = end.parts(&mut header) {
    ///     device.write_vectored(&[parts.header, parts.first, parts.second].map(IoSlice::new)).unwrap();
    ///     end.sent();
    /// }
    /// # assert_eq!((device.len(), end.pending()), (28, 0));
    /// # Ok::<(), tcpcore::Error>(())
    /// ```
    pub fn parts<'p>(&'p self, header: &'p mut [u8; HEADER_ROOM]) -> Option<Parts<'p>> {
        let mut told = sys::Parts::default();
        // SAFETY: as of the calls of lib.rs.
        let answer = unsafe { sys::tcpcore_parts(&self.raw, header.as_mut_ptr().cast(), HEADER_ROOM, &mut told) };
        // SAFETY: nothing changes the end while it is borrowed.
        let (first, second) = unsafe { (bytes(&told.first), bytes(&told.second)) };
        (answer == 0).then(|| Parts { to: told.to.byte, header: &header[..told.header as usize], first, second })
    }

    /// The segment of the last [`End::parts`] has gone out: the end is as after an [`End::emit`]. For use right after it was sent: a call,
    /// an arrival or a timer in between may make another segment due, which then counts as sent. Nothing changes where none is due.
    pub fn sent(&mut self) {
        // SAFETY: as of the calls of lib.rs.
        unsafe { sys::tcpcore_sent(&mut self.raw) };
    }
}
