//! What a side's user does.
use crate::host::Host;
use crate::words::first_number;
use kit_text::LineError;
use std::alloc::Global;
use tcp_conn::{CallError, Lent, Received};

/// The longest text of a call.
const MOST: usize = 131_072;

/// What a call answered: so many bytes, or another answer by its number in tcpcore.h.
type Answer = Result<usize, u8>;

/// Nothing to read yet.
const NOTHING: u8 = 51;

/// The peer has closed, and all was read.
const END_OF_STREAM: u8 = 52;

/// Byte `at` of the text that side `number` sends.
fn text_byte(number: u8, at: u64) -> u8 {
    let sum = (at.wrapping_mul(7) & 0xff)
        + (at >> 8 & 0xff)
        + 3 * u64::from(number.saturating_sub(1));
    (sum & 0xff) as u8
}

/// The answer of a call that counts bytes.
fn counted(answer: Result<usize, CallError>) -> Answer {
    match answer {
        Ok(count) => Ok(count),
        Err(error) => Err(error.number()),
    }
}

/// The answer of a call that doesn't.
fn done(answer: Result<(), CallError>) -> Answer {
    match answer {
        Ok(()) => Ok(0),
        Err(error) => Err(error.number()),
    }
}

/// How many bytes are lent.
fn peeked(lent: Result<Lent<'_>, CallError>) -> Answer {
    match lent {
        Ok(lent) => match lent.front.len().saturating_add(lent.back.len()) {
            0 if lent.ends => Err(END_OF_STREAM),
            0 => Err(NOTHING),
            count => Ok(count),
        },
        Err(error) => Err(error.number()),
    }
}

/// The user sends so much of its text.
fn send(alloc: Global, host: &mut Host, now: u64, count: usize) -> Result<Answer, LineError> {
    let mut text = vec![in alloc; 0u8; count]?;
    let mut at = host.given;
    for byte in text.iter_mut() {
        *byte = text_byte(host.number, at);
        at = at.saturating_add(1);
    }
    let answer = counted(host.end.send(now, &text));
    if let Ok(taken) = answer {
        host.given = host.given.saturating_add(taken as u64);
    }
    Ok(answer)
}

/// The sum of bytes by FNV-1a.
fn sum_of(bytes: &[u8]) -> u32 {
    let mut sum = 2_166_136_261u32;
    for byte in bytes {
        sum = (sum ^ u32::from(*byte)).wrapping_mul(16_777_619);
    }
    sum
}

/// The user reads so much. Where bytes came their sum is told, too.
fn receive(
    alloc: Global,
    host: &mut Host,
    now: u64,
    count: usize,
    trace: &mut String,
) -> Result<(), LineError> {
    let mut text = vec![in alloc; 0u8; count]?;
    match host.end.receive(now, &mut text) {
        Ok(Received::Bytes(count)) => {
            writeln!(trace, "{count} {}", sum_of(&text[..count]))?;
            Ok(())
        }
        Ok(Received::Nothing) => push_answer(Err(NOTHING), trace),
        Ok(Received::EndOfStream) => push_answer(Err(END_OF_STREAM), trace),
        Err(error) => push_answer(Err(error.number()), trace),
    }
}

/// Appends what a call answered.
fn push_answer(answer: Answer, trace: &mut String) -> Result<(), LineError> {
    match answer {
        Ok(count) => writeln!(trace, "{count}")?,
        Err(number) => writeln!(trace, "answer {number}")?,
    }
    Ok(())
}

/// Makes a call of a side's user, whose count is in the words after it where it has one, and appends what it answered.
pub(crate) fn answer_call(
    alloc: Global,
    host: &mut Host,
    now: u64,
    call: &[u8],
    words: &[u8],
    trace: &mut String,
) -> Result<(), LineError> {
    let answer = match call {
        b"acknowledge" => {
            host.end.acknowledge(now);
            Ok(0)
        }
        b"close" => done(host.end.close(now)),
        b"abort" => done(host.end.abort(now)),
        b"peek" => peeked(host.end.core().end.peek()),
        _ => {
            let (count, _) = first_number(words)?;
            let count = (count as usize).min(MOST);
            match call {
                b"send" => send(alloc, host, now, count)?,
                b"consume" => counted(host.end.consume(now, count)),
                b"receive" => return receive(alloc, host, now, count, trace),
                _ => return Err(LineError::BadForm),
            }
        }
    };
    push_answer(answer, trace)
}
