//! Why the program ends.
use std::alloc::AllocError;
use tcp_replay::StepError;

/// There is no memory, or an event on the way was refused or isn't of network, clock or reader.
#[derive(Clone, Copy, Debug)]
pub(crate) struct Failure;

impl From<AllocError> for Failure {
    fn from(_: AllocError) -> Failure {
        Failure
    }
}

impl From<StepError> for Failure {
    fn from(_: StepError) -> Failure {
        Failure
    }
}
