//! The Configs of the two ends of a world.
use crate::generator::Generator;
use std::alloc::Global;
use tcp_conn::{Config, DEFAULT_LIMIT, MAX_MSS, MAX_SHIFT, MIN_MSS};
use tcp_replay::{MAX_LIFE, World};
use tcp_wire::{Addr, Seq};

/// The least lifetime with which a world certainly settles, in positions: twice the capacity of a queue.
pub(crate) const LEAST_LIFE: u32 = 2_097_152;

/// What a world is made from: a lifetime and two Configs.
#[derive(Clone, Copy)]
pub(crate) struct Shape {
    pub(crate) life: u32,
    pub(crate) a: Config,
    pub(crate) b: Config,
}

impl Shape {
    /// The world, with a lifetime of at least [`LEAST_LIFE`].
    pub(crate) fn world(&self, alloc: Global) -> Option<World> {
        let life = self.life.clamp(LEAST_LIFE, MAX_LIFE);
        World::with_lifetime(alloc, self.a, self.b, life).ok()
    }

    /// Whether all buffers are large.
    pub(crate) fn is_large(&self) -> bool {
        let least = self.a.send_capacity.min(self.a.recv_capacity);
        least.min(self.b.send_capacity).min(self.b.recv_capacity) >= 65_536
    }
}

/// The default Config at 10.0.0.`host`, port `host`.
pub(crate) fn plain(host: u8) -> Config {
    Config::new(Addr([10, 0, 0, host]), u16::from(host), Seq(1000))
}

/// Any number, or one near 2^32, 2^31 or 0.
fn isn_of(generator: &mut Generator) -> Seq {
    let any = generator.number();
    let base = generator.one_of(&[0, 1 << 31, any, any]);
    Seq(base.wrapping_sub(generator.one_of(&[0, 1, 2, 7, 30])))
}

fn mss_of(generator: &mut Generator) -> u16 {
    let between = generator.below(1397).saturating_add(64);
    let mss = generator.one_of(&[64, 64, 70, 100, 536, 1460, between]);
    (mss.min(u32::from(MAX_MSS)) as u16).max(MIN_MSS)
}

/// 1 to 40 bytes, or 65,536.
fn capacity_of(generator: &mut Generator) -> usize {
    let small = generator.below(40).saturating_add(1);
    generator.one_of(&[1, 2, small, small, small, small, 300, 65_536]) as usize
}

/// None, or any; the greatest rounds many windows to 0.
fn shift_of(generator: &mut Generator) -> Option<u8> {
    let any = generator.below(15);
    let shift = generator
        .one_of(&[14, 14, 0, 2, any])
        .min(u32::from(MAX_SHIFT)) as u8;
    if generator.one_in(2) {
        None
    } else {
        Some(shift)
    }
}

fn limit_of(generator: &mut Generator) -> u64 {
    if generator.one_in(4) {
        u64::from(generator.below(60)).saturating_add(1)
    } else {
        DEFAULT_LIMIT
    }
}

fn config_of(generator: &mut Generator, host: u8) -> Config {
    Config {
        isn: isn_of(generator),
        mss: mss_of(generator),
        send_capacity: capacity_of(generator),
        recv_capacity: capacity_of(generator),
        window_shift: shift_of(generator),
        sack: !generator.one_in(4),
        limit: limit_of(generator),
        ..plain(host)
    }
}

/// This Config with large buffers and segments, and windows that are advertised in steps of 16,384 bytes.
fn large(config: Config) -> Config {
    Config {
        mss: config.mss.max(1000),
        send_capacity: 65_536,
        recv_capacity: 65_536,
        window_shift: Some(MAX_SHIFT),
        ..config
    }
}

/// Any shape: of either end alone, of two that are equal but for their numbers, or of two with large buffers.
pub(crate) fn shape_of(generator: &mut Generator) -> Shape {
    let a = config_of(generator, 1);
    let b = config_of(generator, 2);
    let life = generator.one_of(&[LEAST_LIFE, LEAST_LIFE + 1, MAX_LIFE]);
    match generator.below(8) {
        0 => Shape {
            life,
            a: large(a),
            b: large(b),
        },
        1 | 2 => Shape {
            life,
            a,
            b: Config {
                addr: b.addr,
                port: b.port,
                isn: b.isn,
                ..a
            },
        },
        _ => Shape { life, a, b },
    }
}
