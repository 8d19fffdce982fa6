//! Rows of captures: one that tcpdump wrote, read whole and by a window, cut, damaged, and what is no capture.
#![tactic(auto)]

use capture_form::{Form, Found, Stop, packet_of, read, tcp_of};
use capture_window::{Window, fill, open, pass_record, wire_lengths};
use kit_io::Counted;
use std::alloc::{AllocError, Global};
use std::process::ExitCode;

/// What tcpdump wrote, in little endian order and microseconds: a SYN behind two tags.
const TAGGED: [u8; 102] = [
    212, 195, 178, 161, 2, 0, 4, 0, 0, 0, 0, 0, 0, 0, 0, 0, 0, 0, 4, 0, 1, 0, 0, 0, 0, 241, 83,
    101, 64, 226, 1, 0, 62, 0, 0, 0, 62, 0, 0, 0, 2, 0, 0, 0, 0, 1, 2, 0, 0, 0, 0, 2, 136, 168, 0,
    5, 129, 0, 0, 7, 8, 0, 69, 0, 0, 40, 0, 1, 64, 0, 64, 6, 38, 51, 10, 77, 0, 1, 10, 77, 0, 2,
    15, 160, 35, 40, 0, 0, 0, 1, 0, 0, 0, 0, 80, 2, 3, 232, 0, 0, 0, 0,
];

/// A capture's first bytes, as tcpdump writes them: little endian order, microseconds, Ethernet.
const HEAD: [u8; 24] = [
    212, 195, 178, 161, 2, 0, 4, 0, 0, 0, 0, 0, 0, 0, 0, 0, 0, 0, 4, 0, 1, 0, 0, 0,
];

/// A record of three bytes that were sixty on the wire.
const RECORD: [u8; 19] = [
    0, 241, 83, 101, 64, 226, 1, 0, 3, 0, 0, 0, 60, 0, 0, 0, 7, 8, 9,
];

/// The first bytes of a record that tells 262,145 bytes.
const DAMAGED: [u8; 16] = [
    0, 241, 83, 101, 64, 226, 1, 0, 1, 0, 4, 0, 60, 0, 0, 0,
];

fn joined(alloc: Global, parts: &[&[u8]]) -> Result<Vec<u8>, AllocError> {
    let mut bytes = Vec::new(alloc);
    for part in parts {
        bytes.extend_from_slice(part)?;
    }
    Ok(bytes)
}

fn stop_word(stop: Stop, answers: &mut String) -> Result<(), AllocError> {
    match stop {
        Stop::Whole => answers.push_str("whole\n"),
        Stop::Cut { at } => write!(answers, "cut at {at}\n"),
        Stop::NoCapture => answers.push_str("no capture\n"),
    }
}

/// The frames of a capture in memory, the segment in each, and where reading ends.
fn show_frames(alloc: Global, bytes: &[u8], answers: &mut String) -> Result<(), AllocError> {
    let (frames, stop) = read(alloc, bytes)?;
    for frame in frames.as_slice() {
        write!(answers, "link {} at {}, {} bytes: ", frame.link, frame.time, frame.wire)?;
        match packet_of(frame.link, frame.bytes) {
            Some(packet) => match tcp_of(packet) {
                Found::Segment { src, dst, bytes } => {
                    write!(answers, "{src} to {dst}, {} bytes\n", bytes.len())?;
                }
                _ => answers.push_str("no segment\n")?,
            },
            None => answers.push_str("no packet\n")?,
        }
    }
    stop_word(stop, answers)
}

/// The lengths of a capture's frames by a window, and how many bytes are left in it.
fn show_lengths(alloc: Global, parts: &[&[u8]], answers: &mut String) -> Result<(), AllocError> {
    let bytes = joined(alloc, parts)?;
    let mut input = Counted::new(bytes.as_slice());
    let mut window = Window::new(alloc);
    let Ok(form) = open(&mut input, &mut window) else {
        return Err(AllocError);
    };
    let Some(form) = form else {
        return answers.push_str("no capture\n");
    };
    let Ok(found) = wire_lengths(alloc, form, &mut input, &mut window) else {
        return Err(AllocError);
    };
    for wire in found.as_slice() {
        write!(answers, "{wire} ")?;
    }
    write!(answers, "and {} left\n", window.bytes().len())
}

/// Takes the record that begins what the window holds, and appends what is left, in decimal.
fn show_record(
    form: Form,
    window: &mut Window,
    answers: &mut String,
) -> Result<(), AllocError> {
    match pass_record(form, window) {
        Some(wire) => write!(answers, "{wire}, left:")?,
        None => answers.push_str("no record, left:")?,
    }
    for byte in window.bytes() {
        write!(answers, " {byte}")?;
    }
    answers.push_str("\n")
}

/// Two records, of which the second is there by the first fill, and behind which there is none.
fn show_records(alloc: Global, answers: &mut String) -> Result<(), AllocError> {
    let bytes = joined(alloc, &[&HEAD, &RECORD, &RECORD])?;
    let mut input = Counted::new(bytes.as_slice());
    let mut window = Window::new(alloc);
    let Ok(Some(form)) = open(&mut input, &mut window) else {
        return Err(AllocError);
    };
    let Ok(is_record) = fill(form, &mut input, &mut window) else {
        return Err(AllocError);
    };
    write!(answers, "{is_record}\n")?;
    show_record(form, &mut window, answers)?;
    show_record(form, &mut window, answers)?;
    show_record(form, &mut window, answers)?;
    let Ok(is_record) = fill(form, &mut input, &mut window) else {
        return Err(AllocError);
    };
    write!(answers, "{is_record}\n")
}

/// What is no capture stays in the window as it came.
fn show_text(alloc: Global, answers: &mut String) -> Result<(), AllocError> {
    let text = b"came 10.0.0.1 10.0.0.2 -\n";
    let mut input = Counted::new(text.as_slice());
    let mut window = Window::new(alloc);
    let Ok(form) = open(&mut input, &mut window) else {
        return Err(AllocError);
    };
    let is_form = form.is_some();
    let is_left = window.bytes() == text.as_slice();
    write!(answers, "{is_form} {is_left}\n")
}

/// All rows.
fn rows(alloc: Global) -> Result<String, AllocError> {
    let mut answers = String::new(alloc);
    show_frames(alloc, &TAGGED, &mut answers)?;
    show_frames(alloc, &TAGGED[..101], &mut answers)?;
    show_frames(alloc, &TAGGED[4..], &mut answers)?;
    show_lengths(alloc, &[&HEAD, &RECORD, &RECORD], &mut answers)?;
    show_lengths(alloc, &[&HEAD, &RECORD, &RECORD[..18]], &mut answers)?;
    show_lengths(alloc, &[&HEAD, &RECORD, &DAMAGED, &RECORD], &mut answers)?;
    show_records(alloc, &mut answers)?;
    show_text(alloc, &mut answers)?;
    Ok(answers)
}

fn main(rt: HostRuntime) -> ExitCode {
    let Ok(answers) = rows(rt.alloc()) else {
        return ExitCode::from(2);
    };
    match print!(rt; "{answers}") {
        Ok(()) => ExitCode::from(0),
        Err(_) => ExitCode::from(2),
    }
}
