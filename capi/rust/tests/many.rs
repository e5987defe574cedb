//! Calls of many values at once.

use chanhub::typed::{self, channel};
use chanhub::{Edition, Ended, Fault, Hub, Seat, SendAllError, Value};
use std::thread;
use std::time::Duration;

fn seats<const COUNT: usize>() -> (Hub, [Seat; COUNT]) {
    let (hub, seats) = Hub::open(Edition::Two, COUNT as u8, 100_000).unwrap();
    (hub, seats.try_into().unwrap())
}

/// Waits until the journal has this line, so that its step has been made.
fn until_it_stands(hub: &Hub, line: &str) {
    while !hub.journal().unwrap().lines().any(|step| step == line) {
        thread::sleep(Duration::from_millis(1));
    }
}

#[test]
fn many_values_are_those_of_so_many_calls() {
    let (hub, [mut seat]) = seats();
    let (sender, receiver) = seat.channel(3).unwrap();
    let bytes = Value::try_from(&[0u8, 255][..]).unwrap();
    let values = [7.into(), bytes, 9.into()];
    assert_eq!(sender.send_all(&mut seat, values), Ok(()));
    assert_eq!(sender.send_all(&mut seat, [0u64; 0]), Ok(()));
    assert_eq!(receiver.recv_up_to(&mut seat, 2).unwrap(), values[..2]);
    let none = receiver.recv_up_to(&mut seat, 0);
    assert_eq!(none, Err(Ended::Fault(Fault::BAD_CALL)));
    assert_eq!(
        receiver.recv_up_to(&mut seat, usize::MAX).unwrap(),
        values[2..]
    );
    assert_eq!(
        hub.journal().unwrap(),
        "chanhub journal 2\nprocs 1\n0 make 3\n0 send 1 7\n0 send 1 #00ff\n0 send 1 9\n0 recv 1\n0 recv 1\n0 recv 1\n"
    );
    sender.close(&mut seat).unwrap();
    let (sent, ended) = (0, Ended::Closed(0));
    let closed = sender.send_all(&mut seat, values);
    assert_eq!(closed, Err(SendAllError { sent, ended }));
    let drained = receiver.recv_up_to(&mut seat, 1);
    assert_eq!(drained, Err(Ended::Drained(0)));
}

#[test]
fn a_send_of_many_stops_at_a_full_journal_and_a_stall() {
    let (_hub, mut seats) = Hub::open(Edition::One, 1, 4).unwrap();
    let mut seat = seats.remove(0);
    let (sender, _) = seat.channel(2).unwrap();
    let error = sender.send_all(&mut seat, 0..9u64).unwrap_err();
    let (sent, ended) = (2, Ended::Stalled);
    assert_eq!(error, SendAllError { sent, ended });
    assert_eq!(
        error.to_string(),
        "every process was waiting, after 2 were sent"
    );
    let error = sender.send_all(&mut seat, 0..9u64).unwrap_err();
    assert_eq!(error.ended, Ended::Fault(Fault::JOURNAL_FULL));
    assert_eq!(Ended::from(error), error.ended);
}

/// Has a typed send of four words into a channel with room for two fail by this, and returns its error. The two that were sent come.
fn fails_by(
    fail: impl FnOnce(&mut Seat, typed::Receiver<String>) -> Option<typed::Receiver<String>>,
) -> typed::SendAllError<String> {
    let (hub, [seat, mut other]) = seats();
    let (sender, receiver) = channel(&seat, 2).unwrap();
    let words = ["a", "b", "c", "d"].map(String::from);
    let thread = thread::spawn(move || sender.bind(&seat).send_all(words).unwrap_err());
    until_it_stands(&hub, "0 send 1 300");
    let receiver = fail(&mut other, receiver);
    let error = thread.join().unwrap();
    if let Some(receiver) = receiver {
        assert_eq!(receiver.bind(&other).recv_up_to(9).unwrap(), ["a", "b"]);
    }
    error
}

#[test]
fn a_typed_send_of_many_gives_back_what_it_did_not_send() {
    let closed = fails_by(|other, receiver| {
        drop(receiver.bind(other));
        None
    });
    let cancelled = fails_by(|other, receiver| {
        other.cancel(0).unwrap();
        Some(receiver)
    });
    let stalled = fails_by(|other, receiver| {
        let never = typed::never::<u64>(other).bind(other).recv();
        assert_eq!(never, Err(Ended::Stalled));
        Some(receiver)
    });
    for (error, ended) in [
        (closed, Ended::Closed(0)),
        (cancelled, Ended::Cancelled),
        (stalled, Ended::Stalled),
    ] {
        assert_eq!((error.sent, error.ended), (2, ended));
        assert_eq!(error.values, ["c", "d"]);
        assert_eq!(error.to_string(), format!("{ended}, after 2 were sent"));
        assert!(format!("{error:?}").starts_with("SendAllError { sent: 2, ended: "));
        assert_eq!(Ended::from(error), ended);
    }
}

#[test]
fn an_end_of_another_hub_is_refused() {
    let bad = Ended::Fault(Fault::BAD_CALL);
    let (_one, [mut seat]) = seats();
    let (_other, [mut stranger]) = seats();
    let (sender, receiver) = seat.channel(1).unwrap();
    let error = sender.send_all(&mut stranger, 0..2u64).unwrap_err();
    assert_eq!((error.sent, error.ended), (0, bad));
    assert_eq!(receiver.recv_up_to(&mut stranger, 1), Err(bad));
    let (sender, receiver) = channel(&seat, 1).unwrap();
    let error = sender.bind(&stranger).send_all(["a"]).unwrap_err();
    assert_eq!((error.sent, error.values, error.ended), (0, vec!["a"], bad));
    assert_eq!(receiver.bind(&stranger).recv_up_to(1), Err(bad));
}

/// Receives all that comes, and returns it.
fn all_of(receiver: &typed::BoundReceiver<u64>) -> Vec<u64> {
    let mut all = Vec::new();
    loop {
        match receiver.recv_up_to(7) {
            Ok(values) => all.extend(values),
            Err(ended) => {
                assert_eq!(ended, Ended::Drained(0));
                return all;
            }
        }
    }
}

/// Passes the numbers below 1,000 from one thread to another.
fn pass(seats: Vec<Seat>, cap: u32) -> Vec<u64> {
    let [seat, other]: [Seat; 2] = seats.try_into().unwrap();
    let (sender, receiver) = channel(&seat, cap).unwrap();
    let thread = thread::spawn(move || sender.bind(&seat).send_all(0..1000).unwrap());
    let all = all_of(&receiver.bind(&other));
    thread.join().unwrap();
    all
}

#[test]
fn many_values_wait_as_often_as_they_must() {
    for cap in [0, 1, 5, 1000] {
        let (_hub, seats) = Hub::open(Edition::Two, 2, 100_000).unwrap();
        assert_eq!(pass(seats, cap), (0..1000).collect::<Vec<_>>());
    }
}

/// Three threads that send, four values at once, and two that receive. Returns what each of these got, by its calls.
fn race(mut seats: Vec<Seat>) -> Vec<Vec<Vec<u64>>> {
    let (sender, receiver) = seats[0].channel(3).unwrap();
    let receives = seats.split_off(3);
    let senders = seats.into_iter().map(|mut seat| {
        thread::spawn(move || {
            for first in (0..20u64).step_by(4) {
                let first = 100 * u64::from(seat.pid()) + first;
                sender.send_all(&mut seat, first..first + 4).unwrap();
            }
        })
    });
    let senders: Vec<_> = senders.collect();
    let receivers = receives.into_iter().map(|mut seat| {
        thread::spawn(move || {
            let calls = std::iter::from_fn(|| receiver.recv_up_to(&mut seat, 3).ok());
            let numbers = |values: Vec<Value>| values.iter().filter_map(|v| v.number()).collect();
            calls.map(numbers).collect()
        })
    });
    let receivers: Vec<_> = receivers.collect();
    senders
        .into_iter()
        .for_each(|thread| thread.join().unwrap());
    let got = receivers.into_iter().map(|thread| thread.join().unwrap());
    got.collect()
}

#[test]
fn a_race_is_repeated() {
    for _ in 0..100 {
        let (hub, seats) = Hub::open(Edition::Two, 5, 1000).unwrap();
        let got = race(seats);
        assert_eq!(got.iter().flatten().flatten().count(), 60);
        let journal = hub.journal().unwrap();
        let (hub, seats) = Hub::follow(&journal, false).unwrap();
        assert_eq!(race(seats), got);
        assert_eq!(hub.journal().unwrap(), journal);
    }
}
