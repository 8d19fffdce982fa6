//! The laws on code: what is proved of two ends is walked once more by plain code, on worlds that a fixed generator makes
//! or that are made by hand, so that a definition that says something else than it seems to is found here. `settling`
//! has worlds that settle under turns of a caller's loop and under half turns of two hosts, `worlds` lists of events on
//! two ends. Printed is what the laws want: what failed, which is nothing.
#![tactic(auto)]

mod generator;
mod settling;
mod worlds;

use std::process::ExitCode;

fn main(rt: HostRuntime) -> ExitCode {
    if settling::shows_worlds(&rt) && worlds::shows_runs(&rt) {
        ExitCode::SUCCESS
    } else {
        ExitCode::FAILURE
    }
}
