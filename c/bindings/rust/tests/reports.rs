//! What `arrive_with_report` and `transmit` report: each value is worked out by hand from RFC 9293, 3.10.7, and RFC 5681, 2 and 4.2. A is at 10.0.0.1
//! port 1 with the initial sequence number 1000, B at 10.0.0.2 port 2 with 5000.
use tcpcore::*;

const A: Addr = [10, 0, 0, 1];
const B: Addr = [10, 0, 0, 2];

/// The segment that is due is one of this kind, begins there, and has so much text and length.
fn goes(end: &mut End, to: Addr, kind: Kind, position: u64, count: usize, length: usize) -> Vec<u8> {
    let mut room = [0; EMIT_ROOM];
    assert_eq!(end.pending(), length);
    let wanted = Transmit { to, kind, length, position, count };
    assert_eq!(end.next_transmit(), Some(wanted));
    let (sent, segment) = end.transmit(&mut room).unwrap();
    assert_eq!((sent, segment.len()), (wanted, length));
    segment.to_vec()
}

fn nothing_goes(end: &mut End) {
    assert_eq!(end.next_transmit(), None);
    assert_eq!(end.transmit(&mut [0; EMIT_ROOM]), None);
}

/// Of a segment that is taken.
fn taken(at_once: bool, acked: u64, brought: Brought, is_duplicate: bool, window_taken: bool) -> ArriveReport {
    ArriveReport { arrival: Arrival::Taken, at_once, rule: Some(Rule::Taken), acked, brought, is_duplicate, window_taken }
}

/// Of a segment of which nothing counts.
fn other(arrival: Arrival, at_once: bool, rule: Option<Rule>, brought: Brought) -> ArriveReport {
    ArriveReport { arrival, at_once, rule, acked: 0, brought, is_duplicate: false, window_taken: false }
}

/// A SYN, its answer, and the acknowledgement, from which B takes its first window.
fn connected() -> (Boxed, Boxed) {
    let mut a = Boxed::new(&Config::new(A, 1, 1000).mss(100).capacities(1000, 1000).sack(false)).unwrap();
    let mut b = Boxed::new(&Config::new(B, 2, 5000).mss(100).capacities(1000, 300).sack(false)).unwrap();
    b.listen().unwrap();
    nothing_goes(&mut b);
    a.connect(B, 2).unwrap();
    let syn = goes(&mut a, B, Kind::Syn, 0, 0, 24);
    nothing_goes(&mut a);
    assert_eq!(b.arrive_with_report(A, B, &syn), other(Arrival::Taken, true, Some(Rule::PeerOpens), Brought::Nothing));
    let answer = goes(&mut b, A, Kind::Syn, 0, 0, 24);
    let accepted = ArriveReport { rule: Some(Rule::PeerAccepts), ..taken(true, 0, Brought::Nothing, false, true) };
    assert_eq!(a.arrive_with_report(B, A, &answer), accepted);
    let ack = goes(&mut a, B, Kind::Acknowledgement, 1, 0, 20);
    assert_eq!(b.arrive_with_report(A, B, &ack), taken(false, 0, Brought::Nothing, false, true));
    (a, b)
}

/// Of 250 bytes in three segments the second is lost: the third is held, and what answers it is a duplicate.
#[test]
fn of_text_that_is_lost() {
    let (mut a, mut b) = connected();
    assert_eq!(a.send(&[7; 250]), Ok(250));
    let first = goes(&mut a, B, Kind::NewText, 1, 100, 120);
    goes(&mut a, B, Kind::NewText, 101, 100, 120);
    let third = goes(&mut a, B, Kind::NewText, 201, 50, 70);
    assert_eq!(b.arrive_with_report(A, B, &first), taken(false, 0, Brought::InOrder, false, true));
    let ack = goes(&mut b, A, Kind::Acknowledgement, 1, 0, 20);
    assert_eq!(b.arrive_with_report(A, B, &third), taken(true, 0, Brought::Held, false, true));
    let duplicate = goes(&mut b, A, Kind::Acknowledgement, 1, 0, 20);
    assert_eq!(a.arrive_with_report(B, A, &ack), taken(false, 100, Brought::Nothing, false, true));
    assert_eq!(a.arrive_with_report(B, A, &duplicate), taken(false, 0, Brought::Nothing, true, true));
    // All that is in flight goes out again, and fills the gap; what came before comes outside of the window.
    assert!(a.timer(Timer::Retransmit));
    let second = goes(&mut a, B, Kind::TextAgain, 101, 100, 120);
    goes(&mut a, B, Kind::TextAgain, 201, 50, 70);
    nothing_goes(&mut a);
    // Its window isn't taken: the last one came with the third, which has a higher number.
    assert_eq!(b.arrive_with_report(A, B, &second), taken(true, 0, Brought::InOrder, false, false));
    assert_eq!(b.arrive_with_report(A, B, &first), other(Arrival::Dropped, true, Some(Rule::Unacceptable), Brought::NotKept));
    let all = goes(&mut b, A, Kind::Acknowledgement, 1, 0, 20);
    assert_eq!(a.arrive_with_report(B, A, &all), taken(false, 150, Brought::Nothing, false, true));
}

/// B's FIN, and the same again; bytes for nobody, and A's reset.
#[test]
fn of_ends() {
    let (mut a, mut b) = connected();
    b.close().unwrap();
    let fin = goes(&mut b, A, Kind::Fin, 1, 0, 20);
    assert_eq!(a.arrive_with_report(B, A, &fin), taken(true, 0, Brought::InOrder, false, true));
    assert!(b.timer(Timer::Retransmit));
    let again = goes(&mut b, A, Kind::FinAgain, 1, 0, 20);
    assert_eq!(a.arrive_with_report(B, A, &again), other(Arrival::Dropped, true, Some(Rule::Unacceptable), Brought::NotKept));
    let answer = goes(&mut a, B, Kind::Acknowledgement, 1, 0, 20);
    assert_eq!(b.arrive_with_report(A, B, &answer[..19]), other(Arrival::Malformed(Malformed::TooShort), false, None, Brought::Nothing));
    assert_eq!(a.arrive_with_report(A, B, &answer), other(Arrival::NotMine, false, Some(Rule::Foreign), Brought::Nothing));
    a.abort().unwrap();
    let reset = goes(&mut a, B, Kind::Reset, 0, 0, 20);
    assert_eq!(b.arrive_with_report(A, B, &reset), other(Arrival::Taken, false, Some(Rule::PeerResets), Brought::Nothing));
    assert_eq!(b.arrive_with_report(A, B, &answer), other(Arrival::Dropped, true, Some(Rule::Stray), Brought::Nothing));
    assert_eq!(b.peek().err(), Some(Error::Ended));
    assert_eq!(b.consume(1), Err(Error::Ended));
}

#[test]
fn reports_have_texts() {
    assert_eq!(Rule::Foreign.to_string(), "for another end, or from another peer");
    assert_eq!(Rule::TakenShut.to_string(), "its acknowledgement is taken, its text isn't: the window is 0");
    assert_eq!(Brought::NotKept.to_string(), "text or a FIN of which nothing is kept");
    assert_eq!((Kind::Reset.to_string(), Kind::Acknowledgement.to_string()), ("a reset".into(), "an acknowledgement".into()));
}
