//! Two ends and a list of events, as in a script.
use kit_script::Script;
use std::alloc::{AllocError, Global};
use tcp_conn::Config;
use tcp_replay::Event;

/// The Configs of the ends, and the events between them.
#[derive(Drop)]
pub(crate) struct Given {
    pub(crate) a: Config,
    pub(crate) b: Config,
    pub(crate) events: Vec<Event>,
}

impl Given {
    /// The events of a script without `repeat`.
    pub(crate) fn new(alloc: Global, script: Script) -> Result<Self, AllocError> {
        let mut events = Vec::new(alloc);
        for turn in script.events {
            events.push(turn.event)?;
        }
        Ok(Given {
            a: script.a,
            b: script.b,
            events,
        })
    }
}
