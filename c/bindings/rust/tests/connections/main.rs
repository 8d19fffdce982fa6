//! Connections over a simulated link, driven by their own times alone; what is refused; calls in any order. The expected times are those
//! of RFC 6298 and RFC 9293.
mod link;

use link::carries;
use std::mem::MaybeUninit;
use std::time::Duration;
use tcpcore::*;

const ADDRS: [Addr; 2] = [[10, 0, 0, 1], [10, 0, 0, 2]];
const SECOND: Duration = Duration::from_secs(1);

struct Any(u64);

impl Any {
    fn below(&mut self, bound: u64) -> u64 {
        self.0 ^= self.0 << 13;
        self.0 ^= self.0 >> 7;
        self.0 ^= self.0 << 17;
        (self.0 >> 16) % bound
    }
}

fn seconds(count: u64) -> Time {
    Time::ZERO + SECOND * count as u32
}

fn config(side: usize) -> Config {
    Config::new(ADDRS[side], 1 + side as u16, 1000).capacities(20_000, 20_000)
}

/// The client and the server.
fn pair(rules: &Rules, now: Time) -> [Connection<'static>; 2] {
    let client = Connection::connect(&config(0), rules, (ADDRS[1], 2), now).unwrap();
    [client, Connection::listen(&config(1), rules, now).unwrap()]
}

/// All that a connection emits.
fn emitted(from: &mut Connection, now: Time) -> Vec<Vec<u8>> {
    let (mut room, mut all) = ([0; EMIT_ROOM], vec![]);
    while let Some(segment) = from.poll_transmit(now, &mut room) {
        all.push(segment.bytes.to_vec());
    }
    all
}

/// Hands segments in to a side.
fn hand_in(to: &mut Connection, side: usize, now: Time, segments: &[Vec<u8>]) -> Vec<Arrival> {
    let mut take = |it: &Vec<u8>| to.handle_segment(now, ADDRS[1 - side], ADDRS[side], it).unwrap().arrival;
    segments.iter().map(&mut take).collect()
}

/// Hands all that is due to the other side, until nothing is.
fn exchange(ends: &mut [Connection; 2], now: Time) {
    for _ in 0..100 {
        for side in [0, 1] {
            let segments = emitted(&mut ends[side], now);
            hand_in(&mut ends[1 - side], 1 - side, now, &segments);
        }
    }
}

/// Two connections in ESTABLISHED.
fn established(now: Time) -> [Connection<'static>; 2] {
    let mut ends = pair(&Rules::new(), now);
    exchange(&mut ends, now);
    assert!(ends.iter().all(|it| it.status().phase == Phase::Established));
    ends
}

/// A side's text from one place to another.
fn text(side: usize, places: std::ops::Range<usize>) -> Vec<u8> {
    places.map(|i| (i * 7 + (i >> 8) + side * 3) as u8).collect()
}

/// Nothing expires but TIME-WAIT, 4 minutes after the last segment, and all comes in the round trips that it takes: 125,000 bytes at
/// 20,000 each 40 ms are 7 of them, beside the handshake and the FINs.
#[test]
fn a_good_link_needs_no_timer() {
    let link = carries(0, 0);
    assert!(link.expired.iter().all(|it| it.2 == Expired::TimeWait), "{:?}", link.expired);
    let (last, ..) = link.expired[link.expired.len() - 1];
    let transfer = last.saturating_duration_since(seconds(1000)) - 240 * SECOND;
    assert!(transfer <= Duration::from_millis(9 * 40), "{transfer:?}");
}

#[test]
fn a_lossy_link_that_reorders() {
    let link = carries(15, 10);
    assert!(link.expired.iter().any(|it| it.2 == Expired::Reorder));
    assert!(link.expired.iter().any(|it| it.2 == Expired::Retransmit));
}

/// RFC 6298, 5.5: the timeout of a second is doubled each time, up to 60; RFC 9293, 3.8.3: a SYN is given up after 3 minutes.
#[test]
fn a_syn_that_nobody_answers() {
    let start = seconds(50);
    let mut client = Connection::connect(&config(0), &Rules::new(), (ADDRS[1], 2), start).unwrap();
    let (mut now, mut sent, mut expired) = (start, vec![], vec![]);
    loop {
        sent.extend(emitted(&mut client, now).iter().map(|_| now.saturating_duration_since(start).as_secs()));
        let at = match client.poll_timeout() {
            Some(at) => at,
            None => break,
        };
        assert_eq!(client.handle_timeout(Time::from_micros(at.as_micros() - 1)), None);
        now = at;
        expired.extend(client.handle_timeout(now));
    }
    assert_eq!(sent, [0, 1, 3, 7, 15, 31, 63, 123]);
    assert_eq!(now, start + 180 * SECOND);
    assert_eq!((expired.len(), expired[0], expired[7]), (8, Expired::Retransmit, Expired::User));
    assert_eq!((client.is_closed(), client.status().ending), (true, Ending::Aborted));
    assert_eq!(client.send(now, b"x"), Err(Error::Ended));
}

/// A longer least timeout, and FIN-WAIT-2 with a limit; both are off the standard's values.
#[test]
fn rules_of_the_callers() {
    let rules = Rules::default().first(3 * SECOND).greatest(5 * SECOND).handshake(None).fin_wait_2(Some(60 * SECOND));
    let mut ends = pair(&rules, Time::ZERO);
    let mut now = Time::ZERO;
    for at in [3, 8, 13, 1000] {
        assert_eq!(emitted(&mut ends[0], now).len(), 1);
        now = seconds(at);
        assert_eq!(ends[0].handle_timeout(now), Some(Expired::Retransmit), "{at}");
    }
    exchange(&mut ends, now);
    ends[0].close(now).unwrap();
    exchange(&mut ends, now);
    assert_eq!(ends[0].status().phase, Phase::FinWait2);
    assert_eq!(ends[0].poll_timeout(), Some(now + 60 * SECOND));
    assert_eq!(ends[0].handle_timeout(now + 60 * SECOND), Some(Expired::User));
    assert_eq!(ends[0].status().ending, Ending::Aborted);
}

/// RFC 6298, 2.4 and 5.5: after a round trip of no time the timer expires 1, 3 and 7 s after what is lost; RFC 9293, 3.8.3: a user timeout
/// that is set later counts from then, too, and gives no connection up before that.
#[test]
fn a_user_timeout_is_set() {
    let sent = seconds(10);
    let mut ends = established(sent);
    let end = &mut ends[0];
    assert_eq!((end.send(sent, b"x"), emitted(end, sent).len()), (Ok(1), 1));
    end.set_user_timeout(Some(2 * SECOND));
    for after in [1, 3, 7] {
        let now = sent + after * SECOND;
        assert_eq!((end.poll_timeout(), end.handle_timeout(now)), (Some(now), Some(Expired::Retransmit)));
        assert_eq!(emitted(end, now).len(), 1);
    }
    assert_eq!(end.poll_timeout(), Some(sent + 2 * SECOND));
    end.set_user_timeout(None);
    assert_eq!(end.poll_timeout(), Some(sent + 15 * SECOND));
    end.set_user_timeout(Some(9 * SECOND));
    assert_eq!(end.handle_timeout(sent + 9 * SECOND), Some(Expired::User));
    assert_eq!(end.status().ending, Ending::Aborted);
}

/// RFC 9293, 3.8.6.3 and 3.7.4: an acknowledgement of one segment waits 40 ms, and a second small segment for the first one's acknowledgement.
#[test]
fn a_policy_is_chosen() {
    let now = seconds(10);
    let mut ends = [config(0), config(1)].map(|it| Connection::listen(&it, &Rules::new(), now).unwrap());
    ends[0] = Connection::connect(&config(0), &Rules::new(), (ADDRS[1], 2), now).unwrap();
    for end in &mut ends {
        end.set_policy(Policy::standard());
    }
    exchange(&mut ends, now);
    assert_eq!((ends[0].send(now, b"a"), ends[0].send(now, b"b")), (Ok(1), Ok(1)));
    let first = emitted(&mut ends[0], now);
    assert_eq!(first.len(), 1);
    assert_eq!((ends[0].send(now, b"c"), emitted(&mut ends[0], now).len()), (Ok(1), 0));
    for bytes in first {
        ends[1].handle_segment(now, ADDRS[0], ADDRS[1], &bytes).unwrap();
    }
    let late = now + Duration::from_millis(40);
    assert_eq!((emitted(&mut ends[1], now).len(), ends[1].poll_timeout()), (0, Some(late)));
    let answer = emitted(&mut ends[1], late);
    assert_eq!(answer.len(), 1);
    ends[0].handle_segment(late, ADDRS[1], ADDRS[0], &answer[0]).unwrap();
    assert_eq!(emitted(&mut ends[0], late).len(), 1);
    ends[1].set_policy(Policy::immediate());
    assert_eq!(ends[1].poll_timeout(), None);
}

/// The number in network order at a place of a segment.
fn number_at(segment: &[u8], place: usize) -> u32 {
    u32::from_be_bytes([segment[place], segment[place + 1], segment[place + 2], segment[place + 3]])
}

/// RFC 9293, 3.8.4: a silent peer is asked at SND.NXT - 1 and answers; one that doesn't is asked again behind each interval, and given up
/// behind the last. Without being asked for no keep-alive is sent, and no time counts as less than a second.
#[test]
fn a_silent_peer_is_asked() {
    let (idle, interval, opened) = (600 * SECOND, 75 * SECOND, seconds(10));
    let mut ends = established(opened);
    assert_eq!(ends[0].poll_timeout(), None);
    ends[0].set_keep_alive(opened, Some(KeepAlive { idle, ..KeepAlive::usual() }));
    let mut now = opened + idle;
    assert_eq!((ends[0].poll_timeout(), emitted(&mut ends[0], opened + SECOND).len()), (Some(now), 0));
    assert_eq!(ends[0].handle_timeout(now), None);
    let asked = emitted(&mut ends[0], now);
    assert_eq!((asked.len(), asked[0].len(), number_at(&asked[0], 4), number_at(&asked[0], 8)), (1, 20, 1000, 1001));
    assert_eq!(hand_in(&mut ends[1], 1, now, &asked), [Arrival::Dropped]);
    carry_one(&mut ends, 1, now, now);
    for _ in 0..9 {
        now = now + if ends[0].poll_timeout() == Some(now + idle) { idle } else { interval };
        assert_eq!((ends[0].poll_timeout(), ends[0].handle_timeout(now), emitted(&mut ends[0], now).len()), (Some(now), None, 1));
    }
    assert_eq!(now, opened + 2 * idle + 8 * interval);
    assert_eq!(ends[0].handle_timeout(now + interval), Some(Expired::User));
    assert_eq!((ends[0].status().ending, emitted(&mut ends[0], now + interval).len()), (Ending::Aborted, 1));
    ends[1].set_keep_alive(now, Some(KeepAlive { idle: Duration::ZERO, interval: Duration::ZERO, most: 0 }));
    assert_eq!(ends[1].poll_timeout(), Some(now + SECOND));
    ends[1].set_keep_alive(now, None);
    assert_eq!(ends[1].poll_timeout(), None);
}

/// The one segment that is due goes to the other side, another time later.
fn carry_one(ends: &mut [Connection; 2], from: usize, sent: Time, came: Time) {
    let segments = emitted(&mut ends[from], sent);
    assert_eq!(hand_in(&mut ends[1 - from], 1 - from, came, &segments), [Arrival::Taken]);
}

/// RFC 8985, 7.2: with a round trip of 100 ms the end of what was sent goes out again behind two of them, and the peer's delay of 200 ms behind
/// a single segment; no timer expires.
fn is_probed(ends: &mut [Connection; 2], opened: Time) {
    let (half, trip) = (opened + Duration::from_millis(50), opened + Duration::from_millis(100));
    carry_one(ends, 0, opened, half);
    carry_one(ends, 1, half, trip);
    carry_one(ends, 0, trip, trip);
    let (client, sent) = (&mut ends[0], opened + SECOND);
    let probed = sent + Duration::from_millis(400);
    assert_eq!((client.send(sent, b"a"), emitted(client, sent).len(), client.poll_timeout()), (Ok(1), 1, Some(probed)));
    assert_eq!(emitted(client, sent + Duration::from_micros(399_999)).len(), 0);
    assert_eq!((emitted(client, probed).len(), client.handle_timeout(probed)), (1, None));
    assert!(client.poll_timeout() > Some(probed));
}

/// RFC 9002, 7.7: with a round trip of 100 ms and a window of 13 segments of 1,460 bytes 379.6 bytes a millisecond go out in slow start: ten
/// segments in 38 6/13 ms. Without being asked for all goes out at once. The first window is ten segments (RFC 6928, 2), and one
/// acknowledgement of each window adds another (RFC 5681, 3.1).
#[test]
fn new_text_is_paced() {
    let opened = seconds(10);
    let mut ends = pair(&Rules::new(), opened);
    assert!(ends[0].set_congestion(Congestion::Cubic));
    let (half, trip) = (opened + Duration::from_millis(50), opened + Duration::from_millis(100));
    carry_one(&mut ends, 0, opened, half);
    carry_one(&mut ends, 1, half, trip);
    carry_one(&mut ends, 0, trip, trip);
    let mut now = opened + SECOND;
    for (segments, paced) in [(10, None), (11, None), (12, Some(10))] {
        ends[0].set_pacing(paced.is_some());
        assert_eq!(ends[0].send(now, &vec![0; segments * 1460]), Ok(segments * 1460));
        let mut all = emitted(&mut ends[0], now);
        assert_eq!(all.len(), paced.unwrap_or(segments));
        ends[0].set_pacing(false);
        all.extend(emitted(&mut ends[0], now));
        assert_eq!(all.len(), segments);
        hand_in(&mut ends[1], 1, now, &all);
        assert_eq!(ends[1].receive(now, &mut [0; 20_000]), Ok(Received::Bytes(segments * 1460)));
        let sent = now;
        now = sent + Duration::from_millis(100);
        carry_one(&mut ends, 1, sent, now);
    }
    let (client, next) = (&mut ends[0], now + Duration::from_micros(38_462));
    client.set_pacing(true);
    assert_eq!((client.send(now, &[0; 13 * 1460]), emitted(client, now).len()), (Ok(13 * 1460), 10));
    assert_eq!((client.poll_timeout(), emitted(client, now + Duration::from_micros(38_461)).len()), (Some(next), 0));
    assert_eq!((client.handle_timeout(next), emitted(client, next).len()), (None, 3));
}

#[test]
fn losses_are_found_by_time() {
    let opened = seconds(10);
    let mut ends = pair(&Rules::new(), opened);
    assert_eq!(ends[0].set_recovery(opened), Ok(()));
    assert_eq!(ends[0].set_recovery(opened), Err(Error::InUse));
    is_probed(&mut ends, opened);
    assert_eq!((ends[1].send(opened, b"b"), emitted(&mut ends[1], opened).len()), (Ok(1), 1));
    assert_eq!(ends.map(|mut end| end.set_recovery(opened)), [Err(Error::InUse), Err(Error::NoRule)]);
}

/// In a block of the caller's, wherever it begins.
#[test]
fn losses_are_found_in_placed_memory() {
    for offset in 0..17 {
        let (opened, mut block, mut little) = (seconds(10), [MaybeUninit::new(0xa5); RECOVERY_MEMORY + 17], [MaybeUninit::uninit(); 100]);
        let mut ends: [Connection; 2] = pair(&Rules::new(), opened);
        assert_eq!(ends[0].set_recovery_in(&mut little, opened), Err(Error::NoMemory));
        assert_eq!(ends[0].set_recovery_in(&mut block[offset..offset + RECOVERY_MEMORY], opened), Ok(()));
        assert_eq!(ends[0].set_recovery_in(&mut [], opened), Err(Error::InUse));
        is_probed(&mut ends, opened);
    }
}

/// RFC 6928, 2: of segments of 1,000 bytes ten go out at first, of 536 before both SYNs have agreed on them (RFC 9293, 3.7.1). RFC 5681, 3.1,
/// and RFC 9438, 4.8: after a timeout ssthresh is half of the 4,000 bytes in flight, and 0.7 of them, and the window a segment.
#[test]
fn a_congestion_window_is_chosen() {
    let (now, greatest) = (seconds(10), 1 << 40);
    let shown = |it: &Connection| {
        let CongestionWindow { congestion, cwnd, ssthresh, smss, is_recovering } = it.congestion();
        assert!(!is_recovering);
        (congestion, cwnd, ssthresh, smss)
    };
    for (rule, ssthresh) in [(Congestion::Reno, 2000), (Congestion::Cubic, 2800)] {
        let mut ends = [config(0).mss(1000), config(1).mss(1000)].map(|it| Connection::listen(&it, &Rules::new(), now).unwrap());
        ends[0] = Connection::connect(&config(0).mss(1000), &Rules::new(), (ADDRS[1], 2), now).unwrap();
        assert_eq!(shown(&ends[0]), (Congestion::None, greatest, greatest, 0));
        assert!(ends[0].set_congestion(rule));
        assert_eq!(shown(&ends[0]), (rule, 5360, greatest, 536));
        exchange(&mut ends, now);
        let end = &mut ends[0];
        assert_eq!(shown(end), (rule, 10_000, greatest, 1000));
        assert_eq!((end.send(now, &[7; 4000]), emitted(end, now).len()), (Ok(4000), 4));
        assert!(!end.set_congestion(Congestion::None));
        assert_eq!(end.handle_timeout(now + SECOND), Some(Expired::Retransmit));
        assert_eq!(shown(end), (rule, 1000, ssthresh, 1000));
        assert_eq!(emitted(end, now + SECOND).len(), 1);
    }
}

/// RFC 5681, 3.2: the first segment goes out again at once; RFC 6298, 5.3: the timer starts anew with it, and with no later one.
#[test]
fn the_first_goes_out_again() {
    let now = seconds(10);
    let mut ends = established(now);
    let end = &mut ends[0];
    assert_eq!((end.resend_first(now), end.send(now, &[7; 3000])), (false, Ok(3000)));
    let sent = emitted(end, now);
    for millis in [500, 900] {
        let later = now + Duration::from_millis(millis);
        assert!(end.resend_first(later));
        assert_eq!(emitted(end, later), sent[..1]);
        assert_eq!(end.poll_timeout(), Some(now + Duration::from_millis(1500)));
    }
}

/// RFC 6675, 5: the second of three segments goes out again, and nothing else.
#[test]
fn a_stretch_goes_out_again() {
    let now = seconds(10);
    let mut ends = established(now);
    let end = &mut ends[0];
    assert_eq!((end.resend(now, 0, 9999), end.send(now, &[7; 3000])), (false, Ok(3000)));
    let sent = emitted(end, now);
    let full = sent[0].len() as u64 - 20;
    assert!(end.resend(now, 1 + full, 1 + 2 * full));
    assert_eq!(emitted(end, now), sent[1..2]);
    assert!(!end.resend(now, 3001, 9999));
}

/// RFC 9293, 3.10.6: known from the opening, or from the SYN that came, on, also behind the end.
#[test]
fn peers_are_known() {
    let now = seconds(1);
    let mut ends = pair(&Rules::new(), now);
    assert_eq!((ends[0].peer(), ends[1].peer()), (Some((ADDRS[1], 2)), None));
    exchange(&mut ends, now);
    ends[1].abort(now).unwrap();
    assert_eq!(ends[1].peer(), Some((ADDRS[0], 1)));
}

/// A segment of somebody who knows the server's address and port and the client's, without a checksum (RFC 9293, 3.1).
fn blind(seq: u32, ack: u32, text: &[u8]) -> Vec<u8> {
    let ports_and_numbers = [&[0, 2, 0, 1][..], &seq.to_be_bytes(), &ack.to_be_bytes()].concat();
    [&ports_and_numbers[..], &[5 << 4, 0x10, 4, 0, 0, 0, 0, 0], text].concat()
}

/// An acknowledgement more than the guard's reach behind SND.UNA comes with nothing that is taken (RFC 5961, 5.2); without a guard it does
/// (RFC 9293, 3.10.7.4, fifth).
#[test]
fn a_guard_keeps_out_what_is_blind() {
    let now = seconds(1);
    for (rules, reach) in
        [(Rules::new(), Some(1 << 21)), (Rules::new().guard(Some(5_000_000)), Some(5_000_000)), (Rules::new().guard(None), None)]
    {
        let mut ends = pair(&rules, now);
        exchange(&mut ends, now);
        let (status, behind) = (ends[0].status(), reach.unwrap_or(1 << 21));
        assert_eq!((status.phase, status.snd_una), (Phase::Established, 1));
        let mut take = |segment: &[u8]| ends[0].handle_vouched_segment(now, ADDRS[1], ADDRS[0], segment).unwrap().arrival;
        let first = take(&blind(1001, 1001_u32.wrapping_sub(behind + 1), b"x"));
        assert_eq!(first, if reach.is_none() { Arrival::Taken } else { Arrival::Dropped });
        let next = if reach.is_none() { 1002 } else { 1001 };
        assert_eq!(take(&blind(next, 1001_u32.wrapping_sub(behind), b"y")), Arrival::Taken);
        let summed = ends[0].handle_segment(now, ADDRS[1], ADDRS[0], &blind(next + 1, 1001, b"z")).unwrap();
        assert_eq!(summed.arrival, Arrival::Malformed(Malformed::BadChecksum));
    }
}

/// The same of an end, whose guard is that of each call.
#[test]
fn an_end_is_guarded_by_its_calls() {
    let (mut a, mut b, mut room) = (Boxed::new(&config(0)).unwrap(), Boxed::new(&config(1)).unwrap(), [0; EMIT_ROOM]);
    b.listen().unwrap();
    a.connect(ADDRS[1], 2).unwrap();
    for turn in 0..3 {
        let (from, to) = if turn % 2 == 0 { (&mut a, &mut b) } else { (&mut b, &mut a) };
        let (dst, segment) = from.emit(&mut room).unwrap();
        assert_eq!(to.arrive_by(ADDRS[turn % 2], dst, segment, Some(Rules::GUARD), false).arrival, Arrival::Taken);
    }
    let old = blind(1001, 1000_u32.wrapping_sub(1 << 21), b"x");
    assert_eq!(a.arrive_by(ADDRS[1], ADDRS[0], &old, Some(Rules::GUARD), true).rule, Some(Rule::Unacceptable));
    assert_eq!(a.arrive_by(ADDRS[1], ADDRS[0], &old, None, true).rule, Some(Rule::Taken));
}

/// Between an expiry and its emissions nothing is taken.
#[test]
fn what_is_due_goes_out_first() {
    let mut now = seconds(1);
    let mut ends = established(now);
    assert_eq!(ends[0].send(now, &[7; 3000]), Ok(3000));
    assert_eq!(emitted(&mut ends[0], now).len(), 3);
    ends[1].send(now, b"late").unwrap();
    let late = emitted(&mut ends[1], now).remove(0);
    now = ends[0].poll_timeout().unwrap();
    assert_eq!(ends[0].handle_timeout(now), Some(Expired::Retransmit));
    let before = ends[0].status();
    let mut room = [0; EMIT_ROOM];
    for _ in 0..3 {
        assert_eq!(ends[0].handle_segment(now, ADDRS[1], ADDRS[0], &late), Err(EmitFirst));
        assert_eq!(ends[0].status(), before);
        assert_eq!(ends[0].handle_timeout(now + 100 * SECOND), None);
        assert!(ends[0].poll_transmit(now, &mut room).is_some());
    }
    assert_eq!(ends[0].poll_transmit(now, &mut room), None);
    assert_eq!(hand_in(&mut ends[0], 0, now, &[late]), [Arrival::Taken]);
    let fault: Box<dyn std::error::Error> = Box::new(EmitFirst);
    assert_eq!(fault.to_string(), "a timer has expired: what is due goes out first");
}

/// RFC 5681, 3.1: no more is in flight than the window; and what waits lets an acknowledgement go out alone.
#[test]
fn a_window_holds_back() {
    let now = seconds(1);
    let mut ends = established(now);
    ends[0].send(now, &text(0, 0..4000)).unwrap();
    let mut room = [0; EMIT_ROOM];
    let first = ends[0].poll_transmit_within(now, 1460, &mut room).unwrap();
    assert_eq!((first.to, first.position, first.count, first.bytes.len()), (ADDRS[1], 1, 1460, 1480));
    assert_eq!(ends[0].poll_transmit_within(now, 2000, &mut room), None);
    ends[1].send(now, b"x").unwrap();
    let other = emitted(&mut ends[1], now);
    hand_in(&mut ends[0], 0, now, &other);
    let alone = ends[0].poll_transmit_within(now, 2000, &mut room).unwrap();
    assert_eq!((alone.position, alone.count, alone.bytes.len()), (1461, 0, 20));
    assert_eq!(ends[0].poll_transmit_within(now, 2920, &mut room).map(|it| (it.position, it.count)), Some((1461, 1460)));
    assert_eq!(ends[0].poll_transmit(now, &mut room).map(|it| (it.position, it.count)), Some((2921, 1080)));
    assert_eq!(ends[0].poll_transmit(now, &mut room), None);
}

/// Of two pairs of connections one's segments go out as one, for a device that cuts them and sums: the same text, and the same states and
/// times. Four of 1,460 bytes end within a window of 6,000, and one more within 7,300.
#[test]
fn segments_go_out_as_one() {
    let now = seconds(5);
    let (mut one, mut other) = (established(now), established(now));
    let sent = text(0, 0..8000);
    for ends in [&mut one, &mut other] {
        assert_eq!(ends[0].send(now, &sent), Ok(8000));
    }
    let (mut small, mut room) = ([0; EMIT_ROOM], [0; TRAIN_ROOM]);
    for (window, most, from, segments) in [(6000, 64, 0, 4), (7300, 64, 5840, 1)] {
        let (train, whole) = other[0].poll_transmit_train(now, window, &mut room, most).unwrap();
        assert_eq!((train.whole.to, train.whole.kind, train.whole.position), (ADDRS[1], Kind::NewText, 1 + from as u64));
        assert_eq!((train.whole.count, train.header, train.each, train.segments), (1460 * segments, 20, 1460, segments));
        assert_eq!((whole.len(), &whole[20..]), (train.whole.length, &sent[from..from + 1460 * segments]));
        for piece in whole[20..].chunks(train.each) {
            let segment = one[0].poll_transmit_within(now, window, &mut small).unwrap();
            assert_eq!(&segment.bytes[20..], piece);
            hand_in(&mut one[1], 1, now, &[segment.bytes.to_vec()]);
        }
        assert!(other[1].handle_vouched_segment(now, ADDRS[0], ADDRS[1], whole).unwrap().acked == 0);
        assert_eq!(one[0].poll_transmit_within(now, window, &mut small), None);
        assert_eq!(other[0].poll_transmit_train(now, window, &mut room, most), None);
        assert_eq!((one[0].status(), one[0].poll_timeout()), (other[0].status(), other[0].poll_timeout()));
        assert_eq!(one[1].status(), other[1].status());
    }
    // The acknowledgement goes alone, with the sum of the pseudo-header, which is another than that of all.
    let (train, alone) = other[1].poll_transmit_train(now, u64::MAX, &mut room, 64).unwrap();
    let whole = one[1].poll_transmit(now, &mut small).unwrap();
    assert_eq!((train.whole.kind, train.segments, train.each), (Kind::Acknowledgement, 1, 0));
    assert_eq!((&alone[..16], alone.len()), (&whole.bytes[..16], 20));
    assert_ne!(alone[16..18], whole.bytes[16..18]);
}

/// A reset in TIME-WAIT counts as lost (RFC 1337, 3).
#[test]
fn resets_are_withheld() {
    let now = seconds(1);
    let mut ends = established(now);
    ends[0].send(now, b"old").unwrap();
    let old = emitted(&mut ends[0], now);
    hand_in(&mut ends[1], 1, now, &old);
    ends[0].close(now).unwrap();
    exchange(&mut ends, now);
    ends[1].close(now).unwrap();
    exchange(&mut ends, now);
    assert_eq!((ends[0].status().phase, ends[1].status().phase), (Phase::TimeWait, Phase::Closed));
    hand_in(&mut ends[1], 1, now, &old);
    let reset = emitted(&mut ends[1], now);
    assert_eq!((reset.len(), reset[0][13] & 4), (1, 4));
    assert_eq!(hand_in(&mut ends[0], 0, now, &reset), [Arrival::Withheld]);
    assert_eq!((ends[0].status().phase, ends[0].poll_timeout()), (Phase::TimeWait, Some(now + 240 * SECOND)));
}

#[test]
fn reading_where_the_bytes_lie() {
    let now = seconds(1);
    let mut ends = established(now);
    assert!(ends[1].peek().unwrap().is_empty());
    ends[0].send(now, b"a line\nand more").unwrap();
    ends[0].close(now).unwrap();
    exchange(&mut ends, now);
    let lent = ends[1].peek().unwrap();
    assert_eq!((lent.first, lent.ends), (&b"a line\nand more"[..], true));
    assert_eq!(ends[1].consume(now, 7), Ok(7));
    assert_eq!(ends[1].peek().unwrap().first, b"and more");
    let mut out = [0; 16];
    assert_eq!(ends[1].receive(now, &mut out), Ok(Received::Bytes(8)));
    assert_eq!(ends[1].receive(now, &mut out), Ok(Received::EndOfStream));
    // Of the two only the one that has closed still waits for bytes, and tells a window.
    for (side, wanted) in [(0, 1), (1, 0)] {
        ends[side].acknowledge(now);
        assert_eq!(emitted(&mut ends[side], now).len(), wanted);
    }
}

#[test]
fn what_calls_refuse() {
    let now = seconds(1);
    let mut ends = pair(&Rules::new(), now);
    assert_eq!(ends[1].send(now, b"x"), Err(Error::NotConnected));
    exchange(&mut ends, now);
    ends[0].close(now).unwrap();
    assert_eq!((ends[0].close(now), ends[0].send(now, b"x")), (Err(Error::Closing), Err(Error::Closing)));
    ends[0].abort(now).unwrap();
    assert_eq!((ends[0].abort(now), ends[0].close(now)), (Err(Error::Ended), Err(Error::Ended)));
    assert_eq!(ends[0].receive(now, &mut []), Err(Error::Ended));
    // The reset goes out, and no timer runs.
    let reset = emitted(&mut ends[0], now);
    assert_eq!((reset.len(), ends[0].poll_timeout()), (1, None));
    hand_in(&mut ends[1], 1, now, &reset);
    assert_eq!((ends[1].is_closed(), ends[1].status().ending), (true, Ending::Reset));
    assert_eq!(ends[1].handle_segment(now, ADDRS[0], ADDRS[1], &[0; 19]).unwrap().arrival, Arrival::Malformed(Malformed::TooShort));
}

#[test]
fn what_making_refuses() {
    let (good, rules) = (config(0), Rules::new());
    let faults = [
        (good.capacities(0, 10), rules, Error::BadCapacity),
        (good.mss(63), rules, Error::BadMss),
        (good.window_shift(Some(15)), rules, Error::BadShift),
        (good.limit(0).runs(4097), rules, Error::BadLimit),
        (good.runs(4097), rules, Error::BadRuns),
        (Config::new([0; 4], 1, 1), rules, Error::BadAddr),
        (Config::new(ADDRS[0], 0, 1), rules, Error::BadPort),
        (good, rules.least(Duration::ZERO), Error::BadRules),
        (good, rules.least(61 * SECOND), Error::BadRules),
        (good.mss(63), rules.greatest(Duration::MAX), Error::BadRules),
    ];
    let mut block = vec![MaybeUninit::uninit(); connection_memory(20_000, 20_000)];
    for (config, rules, wanted) in faults {
        let (peer, now) = ((ADDRS[1], 2), Time::ZERO);
        assert_eq!(Connection::connect(&config, &rules, peer, now).err(), Some(wanted));
        assert_eq!(Connection::listen(&config, &rules, now).err(), Some(wanted));
        assert_eq!(Connection::listen_in(&mut block, &config, &rules, now).err(), Some(wanted));
        assert_eq!(Connection::connect_in(&mut [], &config, &rules, peer, now).err(), Some(wanted));
    }
    for length in (0..good.connection_room() - 31).step_by(17).chain(0..50) {
        let made = Connection::listen_in(&mut block[..length], &good, &rules, Time::ZERO);
        assert_eq!(made.err(), Some(Error::NoMemory), "{length}");
    }
    assert_eq!(good.runs(4097).connection_room(), 0);
    let text = "no timeout can be made from the rules, or no congestion window has this number";
    assert_eq!((Error::BadRules.number(), Error::BadRules.to_string()), (29, text.into()));
}

/// In blocks of the caller's, wherever they begin; and moved, to another thread, too.
#[test]
fn placed_connections_move() {
    const ROOM: usize = connection_memory(4096, 4096);
    let rules = Rules::new();
    for offset in 0..17 {
        let (mut one, mut two) = ([MaybeUninit::new(0xa5); ROOM + 17], [MaybeUninit::new(0x5a); ROOM + 17]);
        let [here, there] = [0, 1].map(|side| config(side).capacities(4096, 4096));
        let client = Connection::connect_in(&mut one[offset..offset + ROOM], &here, &rules, (ADDRS[1], 2), Time::ZERO).unwrap();
        let server = Connection::listen_in(&mut two[17 - offset..], &there, &rules, Time::ZERO).unwrap();
        let mut ends = [client, server];
        exchange(&mut ends, Time::ZERO);
        ends.reverse();
        assert!(ends.iter().all(|it| it.status().phase == Phase::Established));
    }
    let moved = pair(&rules, Time::ZERO);
    std::thread::spawn(move || assert!(!moved[0].is_closed())).join().unwrap();
}

/// Calls in any order, at times that go back or end, with segments that were damaged, come twice or from elsewhere: no call panics, and
/// what is read is what the other side sent. TCPCORE_CALLS in the environment says how many calls.
#[test]
fn any_calls_at_any_times() {
    let (mut in_all, mut first) = (0, 0);
    let calls: u64 = std::env::var("TCPCORE_CALLS").map_or(120_000, |calls| calls.parse().unwrap());
    for seed in 1..=calls / 3000 {
        let mut any = Any(seed * 7_919);
        let mut ends = pair(&Rules::new().user(Some(SECOND)), Time::ZERO);
        for end in ends.iter_mut().take(seed as usize % 3) {
            assert_eq!(end.set_recovery(Time::ZERO), Ok(()));
        }
        let (mut seen, mut room, mut large, mut out) = (vec![], [0; EMIT_ROOM], [0; TRAIN_ROOM], [0; 700]);
        let (mut given, mut read) = ([0, 0], [0, 0]);
        for _ in 0..3000 {
            let side = any.below(2) as usize;
            let now = match any.below(50) {
                0 => Time::from_micros(u64::MAX - any.below(3)),
                n => Time::from_micros(any.below(n * 1_000_000)),
            };
            match any.below(12) {
                0 if any.below(4) == 0 => {
                    let (window, most) = (any.below(30_000), any.below(9) as usize);
                    if let Some((train, whole)) = ends[side].poll_transmit_train(now, window, &mut large, most) {
                        assert!(train.segments >= 1 && train.segments <= most.max(1) && whole.len() == train.header + train.whole.count);
                    }
                }
                0..=3 => {
                    seen.extend(ends[side].poll_transmit_within(now, any.below(30_000), &mut room).map(|it| (side, it.bytes.to_vec())))
                }
                4..=6 if !seen.is_empty() => {
                    let (from, mut bytes) = seen[seen.len() - 1 - any.below(seen.len().min(8) as u64) as usize].clone();
                    let (src, dst) = if any.below(8) > 0 { (ADDRS[from], ADDRS[1 - from]) } else { (ADDRS[side], [0; 4]) };
                    let taken = if any.below(4) == 0 {
                        let at = any.below(bytes.len() as u64) as usize;
                        bytes[at] ^= 1 << any.below(8);
                        ends[side].handle_segment(now, src, dst, &bytes)
                    } else {
                        ends[side].handle_vouched_segment(now, src, dst, &bytes)
                    };
                    first += u32::from(taken.is_err());
                }
                7 => {
                    let _ = ends[side].handle_timeout(now);
                }
                8 => given[side] += ends[side].send(now, &text(side, given[side]..given[side] + 500)).unwrap_or(0),
                9 => {
                    if let Ok(Received::Bytes(count)) = ends[side].receive(now, &mut out) {
                        assert_eq!(out[..count], text(1 - side, read[side]..read[side] + count));
                        read[side] += count;
                    }
                    assert!(read[side] <= given[1 - side]);
                }
                10 if any.below(2) == 0 => ends[side].acknowledge(now),
                10 if any.below(2) == 0 => {
                    let _ = ends[side].resend_first(now);
                }
                10 if any.below(2) == 0 => {
                    let _ = ends[side].resend(now, any.below(2000), any.below(4000));
                }
                10 if any.below(2) == 0 => ends[side].set_policy([Policy::immediate(), Policy::standard()][any.below(2) as usize]),
                10 if any.below(4) == 0 => ends[side].set_keep_alive(
                    now,
                    [None, Some(KeepAlive::usual()), Some(KeepAlive { idle: SECOND, interval: SECOND, most: 2 })][any.below(3) as usize],
                ),
                10 if any.below(4) == 0 => ends[side].set_pacing(any.below(2) == 0),
                10 if any.below(4) == 0 => {
                    assert!(matches!(ends[side].set_recovery(now), Ok(()) | Err(Error::InUse | Error::NoRule)))
                }
                10 => {
                    let rule = [Congestion::None, Congestion::Reno, Congestion::Cubic][any.below(3) as usize];
                    assert!(!ends[side].set_congestion(rule) || ends[side].congestion().congestion == rule);
                }
                _ if any.below(200) == 0 => {
                    let _ = ends[side].close(now);
                }
                _ => assert!(ends[side].consume(now, 0).map_or(true, |taken| taken == 0)),
            }
        }
        in_all += read[0] + read[1];
    }
    // The calls have met both.
    assert!(in_all > 0 && first > 0);
}
