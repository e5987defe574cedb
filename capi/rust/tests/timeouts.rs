//! What calls with a timeout give.

use chanhub::typed::{self, RecvTimeoutError, Select, SelectTimeoutError, SendTimeoutError};
use chanhub::{
    select, Case, Chapters, Edition, Ended, Fault, Hub, OpenError, Receiver, Seat, Selected, Sender,
};
use std::sync::{mpsc, Arc};
use std::thread;
use std::time::{Duration, Instant};

const SHORT: Duration = Duration::from_millis(5);
const LONG: Duration = Duration::from_secs(120);

fn timed(procs: u8) -> (Hub, Vec<Seat>) {
    Hub::builder(procs).timeouts().open().unwrap()
}

fn one_seat(cap: u32) -> (Hub, Seat, Sender, Receiver) {
    let (hub, mut seats) = timed(1);
    let mut seat = seats.remove(0);
    let (sender, receiver) = seat.channel(cap).unwrap();
    (hub, seat, sender, receiver)
}

/// Returns what a call gives that waits for at least this time.
fn takes<R>(least: Duration, call: impl FnOnce() -> R) -> R {
    let began = Instant::now();
    let given = call();
    assert!(began.elapsed() >= least, "it came too soon");
    given
}

#[test]
fn each_call_times_out() {
    let (hub, mut seat, sender, receiver) = one_seat(1);
    let came = takes(SHORT, || receiver.recv_timeout(&mut seat, SHORT));
    assert_eq!(came, Err(Ended::TimedOut));
    assert_eq!(sender.send_timeout(&mut seat, 7, SHORT), Ok(()));
    let sent = takes(SHORT, || sender.send_timeout(&mut seat, 8, SHORT));
    assert_eq!(sent, Err(Ended::TimedOut));
    let cases = [Case::Send(sender, 9.into())];
    let fired = takes(SHORT, || seat.select_timeout(&cases, 0, SHORT));
    assert_eq!(fired, Err(Ended::TimedOut));
    assert_eq!(
        receiver.recv_timeout(&mut seat, Duration::MAX),
        Ok(7.into())
    );
    let cases = [Case::Recv(receiver), Case::Send(sender, 9.into())];
    assert_eq!(
        seat.select_timeout(&cases, 0, Duration::ZERO),
        Ok(Selected::Sent(1))
    );
    sender.close(&mut seat).unwrap();
    assert_eq!(receiver.recv_timeout(&mut seat, SHORT), Ok(9.into()));
    assert_eq!(
        receiver.recv_timeout(&mut seat, SHORT),
        Err(Ended::Drained(0))
    );
    assert_eq!(
        sender.send_timeout(&mut seat, 1, SHORT),
        Err(Ended::Closed(0))
    );
    seat.exit();
    assert_eq!(
        hub.journal().unwrap(),
        "chanhub journal 2\nprocs 2\n1 recv 0\n0 make 1\n\
         0 select 0 r1 default\n0 cancel 1\n0 recv 1\n1 cancel 0\n1 recv 0\n\
         0 select 0 s1:7 default\n\
         0 select 0 s1:8 default\n0 cancel 1\n0 send 1 8\n1 cancel 0\n1 recv 0\n\
         0 select 0 s1:9 default\n0 cancel 1\n0 send 1 9\n1 cancel 0\n1 recv 0\n\
         0 recv 1\n0 select 0 r1 s1:9 default\n0 close 1\n\
         0 select 0 r1 default\n0 select 0 r1 default\n0 select 0 s1:1 default\n0 exit\n1 exit\n"
    );
}

#[test]
fn a_value_comes_first() {
    let (_hub, mut seats) = timed(2);
    let (mut other, mut seat) = (seats.pop().unwrap(), seats.pop().unwrap());
    let (sender, receiver) = seat.channel(0).unwrap();
    let thread = thread::spawn(move || receiver.recv_timeout(&mut other, LONG));
    assert_eq!(sender.send_timeout(&mut seat, 7, LONG), Ok(()));
    assert_eq!(thread.join().unwrap(), Ok(7.into()));
}

#[test]
fn deadlocks_are_told_where_no_timeout_is_left() {
    let (_hub, mut seats) = timed(2);
    let (mut other, mut seat) = (seats.pop().unwrap(), seats.pop().unwrap());
    let (_sender, receiver) = seat.channel(0).unwrap();
    let thread = thread::spawn(move || receiver.recv(&mut other));
    assert_eq!(
        receiver.recv_timeout(&mut seat, SHORT),
        Err(Ended::TimedOut)
    );
    assert_eq!(receiver.recv(&mut seat), Err(Ended::Stalled));
    assert_eq!(thread.join().unwrap(), Err(Ended::Stalled));
}

#[test]
fn typed_ends_give_their_values_back() {
    let (_hub, mut seats) = timed(1);
    let seat = seats.remove(0);
    let (sender, receiver) = typed::channel::<String>(&seat, 1).unwrap();
    let (sender, receiver) = (sender.bind(&seat), receiver.bind(&seat));
    assert_eq!(
        takes(SHORT, || receiver.recv_timeout(SHORT)),
        Err(RecvTimeoutError::Timeout)
    );
    assert_eq!(sender.send_timeout("one".to_owned(), SHORT), Ok(()));
    let refused = takes(SHORT, || sender.send_timeout("two".to_owned(), SHORT));
    assert_eq!(refused, Err(SendTimeoutError::Timeout("two".to_owned())));
    assert_eq!(refused.unwrap_err().into_inner(), "two");
    let mut word = Some("three".to_owned());
    let mut select = Select::new(&seat);
    select.send(&sender, &mut word);
    let fired = takes(SHORT, || select.select_timeout(SHORT));
    assert_eq!(fired.unwrap_err(), SelectTimeoutError::Timeout);
    assert_eq!(word.as_deref(), Some("three"));
    let mut select = Select::new(&seat);
    let received = select.recv(&receiver);
    let fired = select.select_timeout(LONG).unwrap();
    assert_eq!(fired.index(), received);
    assert_eq!(fired.recv(&receiver).as_deref(), Ok("one"));
    sender.close().unwrap();
    let drained = RecvTimeoutError::Ended(Ended::Drained(0));
    assert_eq!(receiver.recv_timeout(LONG), Err(drained));
    let closed = sender.send_timeout("four".to_owned(), LONG);
    let wanted = SendTimeoutError::Ended("four".to_owned(), Ended::Closed(0));
    assert_eq!(closed, Err(wanted));
}

#[test]
fn errors_say_what_they_are() {
    assert_eq!(Ended::TimedOut.to_string(), "the timeout passed");
    assert_eq!(
        SendTimeoutError::Timeout(7).to_string(),
        "the timeout passed"
    );
    assert_eq!(format!("{:?}", SendTimeoutError::Timeout(7)), "Timeout(..)");
    assert_eq!(RecvTimeoutError::Timeout.to_string(), "the timeout passed");
    assert_eq!(
        SelectTimeoutError::Timeout.to_string(),
        "the timeout passed"
    );
    let stalled = Ended::Stalled;
    assert_eq!(
        RecvTimeoutError::Ended(stalled).to_string(),
        stalled.to_string()
    );
    assert_eq!(
        SelectTimeoutError::Ended(stalled).to_string(),
        stalled.to_string()
    );
    assert_eq!(
        SendTimeoutError::Ended(7, stalled).to_string(),
        stalled.to_string()
    );
}

#[test]
fn no_value_is_left_whatever_its_call_gave() {
    let value = Arc::new(());
    for cap in [0, 1, 2].repeat(5) {
        let (_hub, seats) = timed(4);
        let (sender, receiver) = typed::channel(&seats[0], cap).unwrap();
        let start = |seat: Seat| {
            let (sender, receiver, value) = (sender.clone(), receiver.clone(), value.clone());
            thread::spawn(move || {
                let (sender, receiver) = (sender.bind(&seat), receiver.bind(&seat));
                for count in 0..60 {
                    let timeout = Duration::from_micros(50 * (count % 5));
                    match (count + u64::from(seat.pid())) % 6 {
                        0 => drop(sender.send_timeout(value.clone(), timeout)),
                        1 => drop(sender.try_send(value.clone())),
                        2 => drop(sender.send(value.clone())),
                        3 => drop(receiver.recv_timeout(timeout)),
                        4 => drop(receiver.try_recv()),
                        _ => select! {
                            send(sender, value.clone()) -> _ => (),
                            recv(receiver) -> _ => (),
                            default(timeout) => (),
                        }
                        .unwrap_or_default(),
                    }
                }
            })
        };
        let threads: Vec<_> = seats.into_iter().map(start).collect();
        drop(sender);
        for thread in threads {
            thread.join().unwrap();
        }
        assert_eq!(Arc::strong_count(&value), 1 + receiver.len());
        drop(receiver);
        assert_eq!(Arc::strong_count(&value), 1);
    }
}

#[test]
fn other_hubs_take_no_timeout() {
    let (_hub, mut seats) = Hub::open(Edition::Two, 1, 100).unwrap();
    let (_other, mut others) = timed(1);
    let (mut seat, mut other) = (seats.remove(0), others.remove(0));
    let (sender, receiver) = seat.channel(1).unwrap();
    let bad = Ended::Fault(Fault::BAD_CALL);
    assert_eq!(receiver.recv_timeout(&mut seat, SHORT), Err(bad));
    assert_eq!(sender.send_timeout(&mut seat, 1, Duration::MAX), Err(bad));
    assert_eq!(receiver.recv_timeout(&mut other, SHORT), Err(bad));
    assert_eq!(
        other.select_timeout(&[Case::Recv(receiver)], 0, SHORT),
        Err(bad)
    );
}

#[test]
fn a_builder_refuses_what_no_hub_has() {
    let refused = |builder: chanhub::Builder| builder.open().err();
    assert_eq!(refused(Hub::builder(0)), Some(OpenError::Procs));
    assert_eq!(refused(Hub::builder(64)), None);
    assert_eq!(refused(Hub::builder(65)), Some(OpenError::Procs));
    assert_eq!(refused(Hub::builder(0).timeouts()), Some(OpenError::Procs));
    assert_eq!(refused(Hub::builder(63).timeouts()), None);
    assert_eq!(refused(Hub::builder(64).timeouts()), Some(OpenError::Procs));
    let first = Hub::builder(1).edition(Edition::One);
    assert_eq!(refused(first.timeouts()), Some(OpenError::Edition));
    assert_eq!(refused(Hub::builder(1).edition(Edition::One)), None);
    for limit in [0, 1_000_001] {
        assert_eq!(
            refused(Hub::builder(1).limit(limit)),
            Some(OpenError::Limit)
        );
    }
    for keep in [0, 900_001] {
        let endless = Hub::builder(1).endless(keep, Chapters::discard());
        assert_eq!(refused(endless), Some(OpenError::Keep));
    }
    let text = OpenError::Edition.to_string();
    assert_eq!(text, "timeouts need edition 2 or 3");
}

#[test]
fn a_hub_that_never_ends_has_timeouts() {
    let (give, chapters) = mpsc::channel();
    let handed = Chapters::give_to(move |text| {
        let _ = give.send(text.expect("memory").to_owned());
    });
    let builder = Hub::builder(1).endless(10, handed).timeouts();
    let (hub, mut seats) = builder.open().unwrap();
    let mut seat = seats.remove(0);
    let (_sender, receiver) = seat.channel(0).unwrap();
    for _ in 0..20 {
        let came = receiver.recv_timeout(&mut seat, Duration::from_micros(100));
        assert_eq!(came, Err(Ended::TimedOut));
    }
    assert_eq!(hub.cut(), Ok(()));
    drop((hub, seat));
    let chapters: Vec<_> = chapters.iter().collect();
    assert!(chapters.len() > 5);
    assert!(chapters[chapters.len() - 1].ends_with("\n1 exit\n"));
}
