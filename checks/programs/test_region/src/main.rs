//! The allocator over a block, for tests: reads lines, and answers each. `region SIZE N N ..` requests pieces of N
//! bytes in turn from a region of a block of SIZE bytes; `end SEND RECV MARKS HELD` makes an end of capacities 64 and 17
//! and of 3 runs, whose buffers and tables have a region each, of blocks of these sizes.
#![tactic(auto)]

use kit_io::{Counted, read_all};
use kit_text::{LineError, Lines, SPACE, cut, read_number};
use region_heap::{Block, Region};
use std::alloc::{AllocError, Global};
use std::process::ExitCode;
use tcp_conn::{Config, Endpoint};
use tcp_wire::{Addr, Seq};

fn number(word: &[u8]) -> Result<usize, LineError> {
    match read_number(word, 1_000_000) {
        Some(number) => Ok(number as usize),
        None => Err(LineError::BadForm),
    }
}

fn region(alloc: Global, size: &[u8]) -> Result<Region, LineError> {
    let Ok(block) = Block::leaked(&alloc, number(size)?) else {
        return Err(LineError::NoMemory);
    };
    Ok(Region::new(block))
}

/// Whether the region has a piece of this many bytes.
fn is_given(region: &Region, size: usize) -> bool {
    let bytes: Result<Vec<u8, &Region>, AllocError> = Vec::with_capacity(region, size);
    bytes.is_ok()
}

fn ask(region: &Region, sizes: &[u8], answers: &mut String) -> Result<(), LineError> {
    for size in sizes.split(|byte| *byte == SPACE) {
        let given = is_given(region, number(size)?);
        answers.push_str(if given { " given" } else { " refused" })?;
    }
    Ok(())
}

/// The regions of the blocks with these sizes, of which there are three.
fn three_regions(alloc: Global, sizes: &[u8]) -> Result<(Region, Region, Region), LineError> {
    let (recv, sizes) = cut(SPACE, sizes);
    let (marks, held) = cut(SPACE, sizes.ok_or(LineError::BadForm)?);
    let held = held.ok_or(LineError::BadForm)?;
    let recv = region(alloc, recv)?;
    let marks = region(alloc, marks)?;
    Ok((recv, marks, region(alloc, held)?))
}

fn make_end(
    send: Region,
    rest: (Region, Region, Region),
    answers: &mut String,
) -> Result<(), LineError> {
    let (recv, marks, held) = rest;
    let mut config = Config::new(Addr([10, 0, 0, 1]), 1, Seq(1));
    config.send_capacity = 64;
    config.recv_capacity = 17;
    match Endpoint::with_runs_of(send, recv, marks, held, config, 3) {
        Ok(_) => write!(answers, " made")?,
        Err(error) => write!(answers, " {}", error.number())?,
    }
    Ok(())
}

fn answer_line(alloc: Global, line: &[u8], answers: &mut String) -> Result<(), LineError> {
    let (word, rest) = cut(SPACE, line);
    let (size, sizes) = cut(SPACE, rest.ok_or(LineError::BadForm)?);
    let sizes = sizes.ok_or(LineError::BadForm)?;
    let first = region(alloc, size)?;
    match word {
        b"region" => ask(&first, sizes, answers)?,
        b"end" => make_end(first, three_regions(alloc, sizes)?, answers)?,
        _ => return Err(LineError::BadForm),
    }
    answers.push_str("\n")?;
    Ok(())
}

/// Takes every line in order, and returns the answers.
fn answer_lines(rt: &impl AllocGlobal, text: &[u8]) -> Result<String, LineError> {
    let mut answers = String::new(rt.alloc());
    let lines = Lines::new(text).map_err(|_| LineError::BadForm)?;
    for (_, line) in lines {
        answers.push_str("answers:")?;
        answer_line(rt.alloc(), line, &mut answers)?;
    }
    Ok(answers)
}

fn main(rt: HostRuntime) -> ExitCode {
    let mut input = Counted::new(rt.stdin());
    let Ok(text) = read_all(rt.alloc(), &mut input) else {
        return ExitCode::from(2);
    };
    match answer_lines(&rt, &text) {
        Ok(answers) => match print!(rt; "{answers}") {
            Ok(()) => ExitCode::from(0),
            Err(_) => ExitCode::from(2),
        },
        Err(_) => ExitCode::from(2),
    }
}
