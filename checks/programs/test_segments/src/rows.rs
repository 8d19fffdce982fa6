//! A row, and its answer.
use crate::{fronts, numbers, segments, sums, words};
use kit_text::{LineError, Lines, SPACE, cut};
use std::alloc::Global;

/// The answers of all rows, a line each.
pub(crate) fn answers(alloc: Global, text: &[u8]) -> Result<String, LineError> {
    let mut answers = String::new(alloc);
    let rows = Lines::new(text).map_err(|_| LineError::BadForm)?;
    for (_, row) in rows {
        push_answer(alloc, &mut answers, row)?;
        answers.push_str("\n")?;
    }
    Ok(answers)
}

fn push_answer(alloc: Global, text: &mut String, row: &[u8]) -> Result<(), LineError> {
    let (word, rest) = cut(SPACE, row);
    let rest = rest.unwrap_or(b"");
    match word {
        b"written" => segments::push_written(alloc, text, rest),
        b"parsed" => segments::push_parsed(alloc, text, rest),
        b"around" => segments::push_around(alloc, text),
        b"fronts" => fronts::push_fronts(alloc, text, rest, false),
        b"mended-fronts" => fronts::push_fronts(alloc, text, rest, true),
        b"reserved" => segments::push_length(text, rest),
        b"sums" => sums::push_sums(alloc, text, rest),
        b"ones" => sums::push_ones(alloc, text, rest),
        b"all-ones" => sums::push_all_ones(alloc, text),
        b"number" => words::push_number(text, rest),
        b"lines" => words::push_lines(alloc, text, rest),
        b"plus" | b"minus" | b"before" | b"in-window" => numbers::push_seq(text, word, rest),
        _ => numbers::push_bits(text, word, rest),
    }
}
