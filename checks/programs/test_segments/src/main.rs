//! Rows on segments, numbers, sums and words: reads a row a line, and answers each by a line. `written HEX` reads the
//! segment HEX and writes it again; `parsed HEX` shows what it has; `around` writes a segment around its text;
//! `reserved N` shows the length of a segment with these reserved bits. `fronts FROM TO HEX` shows the fault or the
//! text of the segment's first bytes, for each of these lengths, and `mended-fronts` does with the right checksum of
//! each. `sums FROM TO` compares the word sums of these lengths with plain ones; `ones N` shows the checksum of a
//! header and N bytes ff, `all-ones` of nothing else. `plus`, `minus`, `before` and `in-window` are those of a sequence
//! number, `flags`, `contains` and `union` those of control bits. `number WORD MOST` reads a number and `lines HEX` the
//! numbers of a text's lines.
#![tactic(auto)]

mod fronts;
mod numbers;
mod rows;
mod segments;
mod sums;
mod words;

use kit_io::{Counted, read_all};
use std::process::ExitCode;

fn main(rt: HostRuntime) -> ExitCode {
    let mut input = Counted::new(rt.stdin());
    let Ok(text) = read_all(rt.alloc(), &mut input) else {
        return ExitCode::from(2);
    };
    match rows::answers(rt.alloc(), &text) {
        Ok(answers) => match print!(rt; "{answers}") {
            Ok(()) => ExitCode::from(0),
            Err(_) => ExitCode::from(2),
        },
        Err(_) => ExitCode::from(2),
    }
}
