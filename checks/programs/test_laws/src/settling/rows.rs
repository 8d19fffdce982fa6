//! Loops that aren't turns: worlds that such a loop never moves on, however often it is repeated, and these worlds
//! under turns; and what becomes of an end that is reset.
use crate::generator::Generator;
use crate::settling::configs::{LEAST_LIFE, Shape, plain};
use crate::settling::events::{late_opening, text};
use crate::settling::failure::Failure;
use crate::settling::given::{add, open, shape_of, told_shut, untold};
use crate::settling::halves::take_pair;
use crate::settling::make;
use crate::settling::places::left_in;
use crate::settling::turns::{emit_all, happen, read_both, serve, take_turns};
use std::alloc::{AllocError, Global};
use std::io;
use tcp_conn::{Config, Ending, Timer};
use tcp_replay::{Event, Side, World};

/// How often a loop is repeated.
const ROUNDS: u32 = 1000;

/// A loop that isn't one of turns.
#[derive(Clone, Copy)]
enum Loop {
    /// Between the timeout and the emission an old zero window arrives.
    ShutWindow,
    /// The timeout comes before each single emission.
    EachTimed,
    /// One side alone is served.
    OneServed,
    /// Half turns, of ends that have room for one byte and are full.
    HalfTurns,
}

/// B, with four bytes, advertised a window of 0 in its segment 1 and one of 4 in its segment 2, which have the same
/// numbers; six of A's bytes wait.
fn told_both(alloc: Global) -> Result<Vec<Event>, AllocError> {
    let mut events = told_shut(alloc)?;
    let more = [
        Event::Receive(Side::B, 4),
        Event::Acknowledge(Side::B),
        Event::Emit(Side::B),
    ];
    add(alloc, &mut events, more)?;
    Ok(events)
}

/// An old zero window comes between the timeout and the emission, and the open one before the next timeout: A emits
/// nothing.
fn round_shut(world: &mut World) -> Result<(), Failure> {
    read_both(world)?;
    happen(world, Event::Deliver(Side::B, 2))?;
    happen(world, Event::Timer(Side::A, Timer::Retransmit))?;
    happen(world, Event::Deliver(Side::B, 1))?;
    if happen(world, Event::Emit(Side::A))? {
        return Err(Failure);
    }
    serve(world, Side::B)
}

/// The timeout comes before each single emission, and what is emitted arrives.
fn round_of_timeouts(world: &mut World, side: Side) -> Result<(), Failure> {
    happen(world, Event::Timer(side, Timer::Retransmit))?;
    let k = world.count(side);
    happen(world, Event::Emit(side))?;
    happen(world, Event::Deliver(side, k))?;
    Ok(())
}

/// A's text is lost.
fn text_lost(alloc: Global) -> Result<Vec<Event>, AllocError> {
    let mut events = open(alloc)?;
    let more = [
        Event::Send(Side::A, text(alloc, 1, 5)?),
        Event::Emit(Side::A),
    ];
    add(alloc, &mut events, more)?;
    Ok(events)
}

/// B alone is served; A emits what is due without a timeout.
fn round_of_one(world: &mut World) -> Result<(), Failure> {
    read_both(world)?;
    let k = world.count(Side::B);
    serve(world, Side::B)?;
    emit_all(world, Side::A)?;
    happen(world, Event::Deliver(Side::B, k))?;
    emit_all(world, Side::A)
}

/// Each has sent a byte and its FIN, and has the other's byte; FINs and acknowledgements are lost.
fn both_full(alloc: Global) -> Result<Vec<Event>, AllocError> {
    let mut events = open(alloc)?;
    let more = [
        Event::Send(Side::A, text(alloc, 1, 1)?),
        Event::Close(Side::A),
        Event::Send(Side::B, text(alloc, 2, 1)?),
        Event::Close(Side::B),
        Event::Emit(Side::A),
        Event::Emit(Side::A),
        Event::Emit(Side::B),
        Event::Emit(Side::B),
        Event::Deliver(Side::A, 2),
        Event::Deliver(Side::B, 1),
    ];
    add(alloc, &mut events, more)?;
    Ok(events)
}

/// Two ends that have room for one byte.
fn narrow() -> Shape {
    let config = |host| Config {
        recv_capacity: 1,
        ..plain(host)
    };
    Shape {
        life: LEAST_LIFE,
        a: config(1),
        b: config(2),
    }
}

impl Loop {
    /// The world that it doesn't move on.
    fn world(self, alloc: Global) -> Result<World, Failure> {
        match self {
            Loop::ShutWindow => make(alloc, shape_of(0), &told_both(alloc)?),
            Loop::EachTimed => make(alloc, shape_of(7), &untold(alloc)?),
            Loop::OneServed => make(alloc, shape_of(7), &text_lost(alloc)?),
            Loop::HalfTurns => make(alloc, narrow(), &both_full(alloc)?),
        }
    }

    fn round(self, world: &mut World) -> Result<(), Failure> {
        match self {
            Loop::ShutWindow => round_shut(world),
            Loop::EachTimed => {
                round_of_timeouts(world, Side::A)?;
                round_of_timeouts(world, Side::B)
            }
            Loop::OneServed => round_of_one(world),
            Loop::HalfTurns => {
                let mut generator = Generator::new(world.count(Side::A) as u64);
                take_pair(&mut generator, world, false)
            }
        }
    }

    /// Whether as much is left after all rounds as before, and whether turns of the same world then come through.
    fn outcome(self, alloc: Global) -> Result<&'static str, Failure> {
        let mut world = self.world(alloc)?;
        let before = left_in(&world);
        for _ in 0..ROUNDS {
            self.round(&mut world)?;
        }
        if before == 0 || left_in(&world) != before {
            return Ok("something is brought on");
        }
        let walk = take_turns(&mut Generator::new(1), &mut world)?;
        if walk.is_through && !walk.grew && walk.is_settled {
            Ok("as much is left; then turns: through")
        } else {
            Ok("as much is left; then turns: not through")
        }
    }
}

/// Both closed, and A is in TIME-WAIT, but its acknowledgement of B's FIN is lost. TIME-WAIT is cut short at A, B's FIN
/// comes again, and A, which knows of no connection, answers it.
const CUT_SHORT: [Event; 17] = [
    Event::Close(Side::A),
    Event::Emit(Side::A),
    Event::Deliver(Side::A, 2),
    Event::Emit(Side::B),
    Event::Deliver(Side::B, 1),
    Event::Close(Side::B),
    Event::Emit(Side::B),
    Event::Deliver(Side::B, 2),
    Event::Emit(Side::A),
    Event::Timer(Side::A, Timer::TimeWait),
    Event::Timer(Side::B, Timer::Retransmit),
    Event::Emit(Side::B),
    Event::Deliver(Side::B, 3),
    Event::Emit(Side::A),
    Event::Receive(Side::A, 0),
    Event::Receive(Side::B, 0),
    Event::Deliver(Side::A, 4),
];

/// How B ended, after TIME-WAIT was cut short at A, which ended in order.
fn cut_short(alloc: Global) -> Result<Ending, Failure> {
    let mut world = make(alloc, shape_of(7), &open(alloc)?)?;
    if world.run(&CUT_SHORT).is_err() || world.endpoint(Side::A).ending() != Ending::Orderly {
        return Err(Failure);
    }
    Ok(world.endpoint(Side::B).ending())
}

/// How B ended: A was closed when B's first SYN came, and the reset that answered it comes late. Its number is 0, as is
/// the next that B expects.
fn reset_late(alloc: Global) -> Result<Ending, Failure> {
    let mut world = make(alloc, shape_of(7), &late_opening(Side::B))?;
    if world.endpoint(Side::B).ending() != Ending::NotEnded {
        return Err(Failure);
    }
    let late: Event = Event::Deliver(Side::A, 0);
    world.step(&late)?;
    Ok(world.endpoint(Side::B).ending())
}

fn name_of(ending: Ending) -> &'static str {
    match ending {
        Ending::NotEnded => "not ended",
        Ending::Orderly => "ended in order",
        Ending::Reset => "reset",
        Ending::Aborted => "aborted",
    }
}

/// What became of each row.
#[derive(Clone, Copy)]
pub(crate) struct Rows {
    shut_window: &'static str,
    each_timed: &'static str,
    one_served: &'static str,
    half_turns: &'static str,
    cut_short: &'static str,
    reset_late: &'static str,
}

impl Rows {
    pub(crate) fn run(alloc: Global) -> Result<Rows, Failure> {
        Ok(Rows {
            shut_window: Loop::ShutWindow.outcome(alloc)?,
            each_timed: Loop::EachTimed.outcome(alloc)?,
            one_served: Loop::OneServed.outcome(alloc)?,
            half_turns: Loop::HalfTurns.outcome(alloc)?,
            cut_short: name_of(cut_short(alloc)?),
            reset_late: name_of(reset_late(alloc)?),
        })
    }

    pub(crate) fn print(&self, rt: &impl Print) -> io::Result<()> {
        println!(rt; "1000 rounds of loops that aren't turns:")?;
        println!(rt;
            "  a shut window between timeout and emission: {}",
            self.shut_window
        )?;
        println!(rt; "  a timeout before each emission: {}", self.each_timed)?;
        println!(rt; "  one side served alone: {}", self.one_served)?;
        println!(rt; "  half turns where both are full: {}", self.half_turns)?;
        println!(rt; "an end that is reset:")?;
        println!(rt; "  TIME-WAIT cut short at the other: {}", self.cut_short)?;
        println!(rt;
            "  a late reset with the number that is next: {}",
            self.reset_late
        )
    }
}
