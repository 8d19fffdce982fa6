//! One scripted world, as checks/programs/test_connections has it, by the crate's connections: reads a script and prints its trace.
use std::io::{stdin, stdout, BufRead, BufWriter, Stdout, Write};
use std::time::Duration;
use tcpcore::{Addr, Arrival, Config, Connection, Error, Received, Rules, Time, EMIT_ROOM};

type Fault = Box<dyn std::error::Error>;
type Words<'a> = std::str::SplitWhitespace<'a>;
const ADDRS: [Addr; 2] = [[10, 0, 0, 1], [10, 0, 0, 2]];

/// A segment on its way to a side.
struct Packet {
    at: u64,
    side: usize,
    bytes: Vec<u8>,
}

/// What becomes of a side's emissions: from `first` on `count` are lost, or come so much later.
struct Fate {
    side: usize,
    first: u64,
    count: u64,
    later: Option<u64>,
}

struct World {
    ends: [Connection<'static>; 2],
    now: u64,
    way: u64,
    window: u64,
    emitted: [u64; 2],
    given: [u64; 2],
    packets: Vec<Packet>,
    fates: Vec<Fate>,
    out: BufWriter<Stdout>,
}

fn name(side: usize) -> char {
    ['A', 'B'][side]
}

fn side(word: &str) -> Result<usize, Fault> {
    ["A", "B"].iter().position(|it| *it == word).ok_or_else(|| "no side".into())
}

fn word<'a>(words: &mut Words<'a>) -> Result<&'a str, Fault> {
    words.next().ok_or_else(|| "a word is missing".into())
}

/// A time or a limit, none where it is `-`.
fn limit(words: &mut Words) -> Result<Option<u64>, Fault> {
    match word(words)? {
        "-" => Ok(None),
        word => Ok(Some(word.parse()?)),
    }
}

fn number(words: &mut Words) -> Result<u64, Fault> {
    Ok(limit(words)?.unwrap_or(u64::MAX))
}

/// The number of an arrival in tcpcore.h.
fn arrival_number(arrival: Arrival) -> u32 {
    match arrival {
        Arrival::Taken => 0,
        Arrival::Malformed(fault) => fault as u32,
        Arrival::Dropped => 55,
        Arrival::NotMine => 56,
        Arrival::Withheld => 59,
    }
}

impl World {
    /// A connects to B, at time 0.
    fn new(rules: &Rules, words: &mut Words) -> Result<World, Fault> {
        let (way, mss, capacity) = (number(words)?, number(words)? as u16, number(words)? as usize);
        let (shift, runs) = (limit(words)?, number(words)? as u16);
        let config = |side: usize, isn| {
            let config = Config::new(ADDRS[side], 1 + side as u16, isn).mss(mss).capacities(capacity, capacity).runs(runs);
            config.window_shift(shift.map(|it| it as u8))
        };
        let client = Connection::connect(&config(0, 4_294_967_290), rules, (ADDRS[1], 2), Time::ZERO)?;
        let ends = [client, Connection::listen(&config(1, 5000), rules, Time::ZERO)?];
        let out = BufWriter::new(stdout());
        let (packets, fates) = (vec![], vec![]);
        let mut world = World { ends, now: 0, way, window: u64::MAX, emitted: [0; 2], given: [0; 2], packets, fates, out };
        writeln!(world.out, "new")?;
        world.turn(0)?;
        world.turn(1)?;
        Ok(world)
    }

    fn time(&self) -> Time {
        Time::from_micros(self.now)
    }

    fn show(&mut self, side: usize) -> Result<(), Fault> {
        let s = self.ends[side].status();
        write!(self.out, "{} {} is {} {} ", self.now, name(side), s.phase as u32, s.ending as u32)?;
        write!(self.out, "{} {} {} {} {} {} ", s.unread, s.ordered, s.released, s.room, s.queued, s.in_flight)?;
        match self.ends[side].poll_timeout() {
            Some(at) => writeln!(self.out, "{}", at.as_micros())?,
            None => writeln!(self.out, "-")?,
        }
        Ok(())
    }

    /// When the side's emission of this number comes; none where it is lost.
    fn arrival(&self, side: usize, number: u64) -> Option<u64> {
        let met = self.fates.iter().filter(|it| it.side == side && number >= it.first && number - it.first < it.count);
        met.map(|it| it.later).try_fold(self.now + self.way, |at, later| Some(at + later?))
    }

    fn emit(&mut self, side: usize) -> Result<(), Fault> {
        let (mut room, now) = ([0; EMIT_ROOM], self.time());
        while let Some(sent) = self.ends[side].poll_transmit_within(now, self.window, &mut room) {
            let bytes = sent.bytes.to_vec();
            write!(self.out, "{} {} sent {} {} {} ", self.now, name(side), bytes.len(), sent.position, sent.count)?;
            for byte in &bytes[..4 * usize::from(bytes[12] >> 4)] {
                write!(self.out, "{byte:02x}")?;
            }
            let at = self.arrival(side, self.emitted[side]);
            writeln!(self.out, "{}", if at.is_some() { "" } else { " lost" })?;
            self.packets.extend(at.map(|at| Packet { at, side: 1 - side, bytes }));
            self.emitted[side] += 1;
        }
        Ok(())
    }

    /// Hands in all that has come, in the order in which it was emitted.
    fn deliver(&mut self) -> Result<(), Fault> {
        let now = self.time();
        let (come, left) = std::mem::take(&mut self.packets).into_iter().partition(|it| it.at <= self.now);
        self.packets = left;
        let come: Vec<Packet> = come;
        for Packet { side, bytes, .. } in come {
            let told = self.ends[side].handle_segment(now, ADDRS[1 - side], ADDRS[side], &bytes)?;
            write!(self.out, "{} {} came {} {} ", self.now, name(side), arrival_number(told.arrival), told.acked)?;
            writeln!(self.out, "{} {} {}", told.at_once as u8, told.is_duplicate as u8, told.window_taken as u8)?;
        }
        Ok(())
    }

    /// What is due goes out, and timers expire.
    fn turn(&mut self, side: usize) -> Result<(), Fault> {
        self.emit(side)?;
        while let Some(timer) = self.ends[side].handle_timeout(self.time()) {
            writeln!(self.out, "{} {} expired {}", self.now, name(side), timer as u32)?;
            self.emit(side)?;
        }
        self.show(side)
    }

    /// Time goes on, and whatever happens by then.
    fn go_on(&mut self, until: u64) -> Result<(), Fault> {
        loop {
            let deadlines = self.ends.iter().filter_map(|it| it.poll_timeout()).map(Time::as_micros);
            match self.packets.iter().map(|it| it.at).chain(deadlines).min() {
                Some(next) if next <= until => self.now = self.now.max(next),
                _ => break,
            }
            self.deliver()?;
            self.turn(0)?;
            self.turn(1)?;
        }
        self.now = self.now.max(until);
        Ok(())
    }

    fn send(&mut self, side: usize, count: u64) -> Result<String, Error> {
        let first = self.given[side];
        let text: Vec<u8> = (first..first + count).map(|at| (at * 7 + (at >> 8) + 3 * side as u64) as u8).collect();
        let taken = self.ends[side].send(self.time(), &text)?;
        self.given[side] += taken as u64;
        Ok(taken.to_string())
    }

    fn receive(&mut self, side: usize, room: u64) -> Result<String, Error> {
        let mut out = vec![0; room as usize];
        Ok(match self.ends[side].receive(self.time(), &mut out)? {
            Received::Nothing => "answer 51".into(),
            Received::EndOfStream => "answer 52".into(),
            Received::Bytes(count) => {
                let sum = out[..count].iter().fold(2_166_136_261u32, |sum, byte| (sum ^ u32::from(*byte)).wrapping_mul(16_777_619));
                format!("{count} {sum}")
            }
        })
    }

    fn peek(&self, side: usize) -> Result<String, Error> {
        let lent = self.ends[side].peek()?;
        Ok(match lent.first.len() + lent.second.len() {
            0 if lent.ends => "answer 52".into(),
            0 => "answer 51".into(),
            count => count.to_string(),
        })
    }

    /// What a call of a side's user answers.
    fn answer(&mut self, side: usize, name: &str, count: u64) -> Result<String, Error> {
        let (now, none) = (self.time(), "0".to_string());
        let end = &mut self.ends[side];
        match name {
            "send" => self.send(side, count),
            "receive" => self.receive(side, count),
            "peek" => self.peek(side),
            "consume" => end.consume(now, count as usize).map(|it| it.to_string()),
            "close" => end.close(now).map(|()| none),
            "abort" => end.abort(now).map(|()| none),
            _ => {
                end.acknowledge(now);
                Ok(none)
            }
        }
    }

    fn call(&mut self, side: usize, words: &mut Words) -> Result<(), Fault> {
        let call = word(words)?;
        self.go_on(number(words)?)?;
        let count = words.next().map_or(Ok(0), str::parse)?;
        let answer = self.answer(side, call, count).unwrap_or_else(|error| format!("answer {}", error.number()));
        writeln!(self.out, "{} {} {call} {answer}", self.now, name(side))?;
        self.turn(side)
    }

    fn add_fate(&mut self, words: &mut Words, is_lost: bool) -> Result<(), Fault> {
        let (side, first, count) = (side(word(words)?)?, number(words)?, number(words)?);
        let later = if is_lost { None } else { Some(number(words)?) };
        self.fates.push(Fate { side, first, count, later });
        Ok(())
    }
}

fn read_rules(words: &mut Words) -> Result<Rules, Fault> {
    let mut next = || Ok::<_, Fault>(limit(words)?.map(Duration::from_micros));
    let mut times = [None; 9];
    for time in &mut times {
        *time = next()?;
    }
    let [first, least, greatest, granularity, after_syn, time_wait, handshake, user, fin_wait_2] = times;
    let is = |time: Option<Duration>| time.unwrap_or(Duration::MAX);
    let rules = Rules::new().first(is(first)).least(is(least)).greatest(is(greatest)).granularity(is(granularity)).after_syn(is(after_syn));
    let rules = rules.time_wait(is(time_wait)).handshake(handshake).user(user).fin_wait_2(fin_wait_2);
    Ok(rules.suspect_after(number(words)? as u32))
}

fn main() -> Result<(), Fault> {
    let (mut rules, mut world) = (Rules::new(), None);
    for line in stdin().lock().lines() {
        let line = line?;
        let mut words = line.split_whitespace();
        match (word(&mut words)?, &mut world) {
            ("rules", _) => rules = read_rules(&mut words)?,
            ("new", _) => {
                // The one before it has to have printed all.
                drop(world.take());
                world = Some(World::new(&rules, &mut words)?);
            }
            ("lose", Some(world)) => world.add_fate(&mut words, true)?,
            ("late", Some(world)) => world.add_fate(&mut words, false)?,
            ("window", Some(world)) => world.window = number(&mut words)?,
            ("run", Some(world)) => world.go_on(number(&mut words)?)?,
            (word, Some(world)) => world.call(side(word)?, &mut words)?,
            _ => return Err("no world".into()),
        }
    }
    Ok(())
}
