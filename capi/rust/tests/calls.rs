//! What the crate's calls give.

use chanhub::{
    Case, Chapters, Counts, Edition, Ended, Fault, Hub, OpenError, Seat, Selected, Sender, Table,
    Value,
};
use std::thread;
use std::time::Duration;

fn one_seat(edition: Edition) -> (Hub, Seat) {
    let (hub, mut seats) = Hub::open(edition, 1, 100).unwrap();
    (hub, seats.remove(0))
}

fn cancel_once_it_waits(seat: &mut Seat, other: u8) {
    while let Err(fault) = seat.cancel(other) {
        assert_eq!(fault, Fault::NOT_PARKED);
        thread::sleep(Duration::from_millis(1));
    }
}

#[test]
fn values_come_in_order() {
    let (hub, mut seat) = one_seat(Edition::Two);
    let (sender, receiver) = seat.channel(3).unwrap();
    let bytes = Value::try_from(&[1u8, 2, 3][..]).unwrap();
    sender.send(&mut seat, 7).unwrap();
    sender.send(&mut seat, bytes).unwrap();
    assert_eq!(
        hub.look_at(&receiver),
        Some(Counts {
            cap: 3,
            sent: 2,
            received: 0,
            closed: false
        })
    );
    sender.close(&mut seat).unwrap();
    assert_eq!(
        receiver.drain(&mut seat).collect::<Vec<_>>(),
        [Ok(Value::Number(7)), Ok(bytes)]
    );
    assert_eq!(receiver.recv(&mut seat), Err(Ended::Drained(0)));
    assert_eq!(sender.send(&mut seat, 1), Err(Ended::Closed(0)));
    assert_eq!(
        sender.close(&mut seat),
        Err(Ended::Fault(Fault::ALREADY_CLOSED))
    );
}

#[test]
fn both_ends_have_the_number_of_their_port() {
    let (hub, mut seat) = one_seat(Edition::One);
    for port in 1..=3 {
        let (sender, receiver) = seat.channel(1).unwrap();
        assert_eq!((sender.port(), receiver.port()), (port, port));
    }
    let (sender, receiver) = seat.channel(1).unwrap();
    sender.send(&mut seat, 7).unwrap();
    receiver.recv(&mut seat).unwrap();
    assert_eq!(
        hub.journal().unwrap().lines().skip(6).collect::<Vec<_>>(),
        [
            format!("0 send {} 7", sender.port()),
            format!("0 recv {}", receiver.port())
        ]
    );
}

#[test]
fn a_panic_exits_the_process_of_its_seat() {
    let (hub, mut seats) = Hub::open(Edition::One, 2, 100).unwrap();
    let panics = seats.pop().unwrap();
    let mut waits = seats.pop().unwrap();
    let (_, receiver) = waits.channel(0).unwrap();
    let thread = thread::spawn(move || panic!("{panics:?}"));
    assert_eq!(receiver.recv(&mut waits), Err(Ended::Stalled));
    assert!(thread.join().is_err());
    assert!(hub.journal().unwrap().lines().any(|line| line == "1 exit"));
}

#[test]
fn next_tells_what_drain_passes_on() {
    let (_hub, mut seat) = one_seat(Edition::One);
    let (sender, receiver) = seat.channel(1).unwrap();
    sender.send(&mut seat, 7).unwrap();
    assert_eq!(receiver.next(&mut seat), Ok(Some(Value::Number(7))));
    assert_eq!(receiver.next(&mut seat), Err(Ended::Stalled));
    sender.close(&mut seat).unwrap();
    assert_eq!(receiver.next(&mut seat), Ok(None));
}

#[test]
fn a_drain_that_stalls_says_so() {
    let (_hub, mut seat) = one_seat(Edition::One);
    let (sender, receiver) = seat.channel(1).unwrap();
    sender.send(&mut seat, 7).unwrap();
    assert_eq!(
        receiver.drain(&mut seat).collect::<Vec<_>>(),
        [Ok(Value::Number(7)), Err(Ended::Stalled)]
    );
}

#[test]
fn a_drain_that_is_cancelled_says_so() {
    let (_hub, mut seats) = Hub::open(Edition::Two, 2, 1_000_000).unwrap();
    let mut drains = seats.pop().unwrap();
    let mut cancels = seats.pop().unwrap();
    let (_, receiver) = cancels.channel(0).unwrap();
    let thread = thread::spawn(move || receiver.drain(&mut drains).collect::<Vec<_>>());
    cancel_once_it_waits(&mut cancels, 1);
    assert_eq!(thread.join().unwrap(), [Err(Ended::Cancelled)]);
}

#[test]
fn a_drain_that_is_refused_says_so() {
    let (_hub, mut seats) = Hub::open(Edition::One, 1, 2).unwrap();
    let (sender, receiver) = seats[0].channel(1).unwrap();
    sender.send(&mut seats[0], 7).unwrap();
    assert_eq!(
        receiver.drain(&mut seats[0]).collect::<Vec<_>>(),
        [Err(Ended::Fault(Fault::JOURNAL_FULL))]
    );
}

#[test]
fn a_drain_that_has_ended_makes_no_step() {
    let (hub, mut seat) = one_seat(Edition::One);
    let (sender, receiver) = seat.channel(0).unwrap();
    let mut stalls = receiver.drain(&mut seat);
    assert_eq!(stalls.next(), Some(Err(Ended::Stalled)));
    assert_eq!(stalls.next(), None);
    sender.close(&mut seat).unwrap();
    let mut drains = receiver.drain(&mut seat);
    assert_eq!(drains.next(), None);
    assert_eq!(drains.next(), None);
    assert_eq!(
        hub.journal().unwrap(),
        "chanhub journal 1\nprocs 1\n0 make 0\n0 recv 1\n0 close 1\n0 recv 1\n"
    );
}

#[test]
fn select_tells_its_case() {
    let (_hub, mut seat) = one_seat(Edition::One);
    let (sender, receiver) = seat.channel(1).unwrap();
    let cases = [Case::Recv(receiver), Case::Send(sender, Value::Number(5))];
    assert_eq!(seat.select(&cases[..1], true, 0), Ok(Selected::Default));
    assert_eq!(seat.select(&cases, false, 0), Ok(Selected::Sent(1)));
    assert_eq!(
        seat.select(&cases, false, 0),
        Ok(Selected::Got(0, Value::Number(5)))
    );
    assert_eq!(
        seat.select(&[cases[0]; 17], true, 0),
        Err(Ended::Fault(Fault::BAD_CALL))
    );
}

#[test]
fn a_select_has_up_to_16_cases() {
    let (_hub, mut seat) = one_seat(Edition::Two);
    let (sender, receiver) = seat.channel(1).unwrap();
    let values = [Value::Number(5), Value::try_from(&b"five"[..]).unwrap()];
    for (count, value) in (1..=16).zip(values.into_iter().cycle()) {
        let mut cases = vec![Case::Recv(receiver); count];
        cases[count - 1] = Case::Send(sender, value);
        let sent = seat.select(&cases, false, 0);
        assert_eq!(sent, Ok(Selected::Sent(count - 1)));
        let cases = vec![Case::Recv(receiver); count];
        let got = seat.select(&cases, false, count as u64 - 1);
        assert_eq!(got, Ok(Selected::Got(count - 1, value)));
        assert_eq!(seat.select(&cases, true, 0), Ok(Selected::Default));
    }
    for count in [17, 40] {
        let told = seat.select(&vec![Case::Send(sender, values[0]); count], true, 0);
        assert_eq!(told, Err(Ended::Fault(Fault::BAD_CALL)));
    }
}

#[test]
fn an_end_of_another_hub_is_refused() {
    let (_one, mut seat) = one_seat(Edition::One);
    let (other, mut stranger) = one_seat(Edition::One);
    let (sender, receiver) = seat.channel(1).unwrap();
    stranger.channel(1).unwrap();
    assert_eq!(
        sender.send(&mut stranger, 1),
        Err(Ended::Fault(Fault::BAD_CALL))
    );
    assert_eq!(
        receiver.recv(&mut stranger),
        Err(Ended::Fault(Fault::BAD_CALL))
    );
    assert_eq!(
        stranger.select(&[Case::Recv(receiver)], true, 0),
        Err(Ended::Fault(Fault::BAD_CALL))
    );
    assert_eq!(other.look_at(&receiver), None);
}

#[test]
fn openings_are_refused() {
    assert_eq!(Hub::open(Edition::One, 65, 1).err(), Some(OpenError::Procs));
    assert_eq!(Hub::open(Edition::Two, 1, 0).err(), Some(OpenError::Limit));
}

#[test]
fn bytes_are_of_edition_two_and_few() {
    let (_hub, mut seat) = one_seat(Edition::One);
    let (sender, _) = seat.channel(1).unwrap();
    let bytes = Value::try_from(&[0u8; 32][..]).unwrap();
    assert_eq!(
        sender.send(&mut seat, bytes),
        Err(Ended::Fault(Fault::BAD_CALL))
    );
    assert!(Value::try_from(&[0u8; 33][..]).is_err());
}

#[test]
fn a_call_that_waits_is_cancelled() {
    let (_hub, mut seats) = Hub::open(Edition::Two, 2, 1_000_000).unwrap();
    let mut waits = seats.pop().unwrap();
    let mut cancels = seats.pop().unwrap();
    let (_, receiver) = cancels.channel(0).unwrap();
    let thread = thread::spawn(move || receiver.recv(&mut waits));
    cancel_once_it_waits(&mut cancels, 1);
    assert_eq!(thread.join().unwrap(), Err(Ended::Cancelled));
}

#[test]
fn a_process_that_has_exited_is_started_again() {
    let (hub, mut seats) = Hub::open(Edition::Three, 2, 100).unwrap();
    let (mut worker, mut boss) = (seats.pop().unwrap(), seats.pop().unwrap());
    let (sender, receiver) = boss.channel(2).unwrap();
    for other in [1, 0, 2, 255] {
        assert_eq!(boss.start(other).unwrap_err(), Fault::NOT_GONE);
    }
    for _ in 0..2 {
        let number = Table::new().put(&worker, "a thing"); // no table has the other one
        sender.send(&mut worker, number).unwrap();
        worker.exit();
        worker = boss.start(1).unwrap();
    }
    assert_eq!(worker.pid(), 1);
    assert_eq!(receiver.recv(&mut worker), Ok(101.into()));
    assert_eq!(receiver.recv(&mut boss), Ok(201.into()));
    drop(worker);
    assert_eq!(receiver.recv(&mut boss), Err(Ended::Stalled));
    assert_eq!(
        hub.journal().unwrap().lines().skip(7).collect::<Vec<_>>(),
        [
            "1 send 1 101",
            "1 exit",
            "0 start 1",
            "1 send 1 201",
            "1 exit",
            "0 start 1",
            "1 recv 1",
            "0 recv 1",
            "1 exit",
            "0 recv 1"
        ]
    );
}

#[test]
fn a_closed_channel_is_opened_again() {
    let (hub, mut seat) = one_seat(Edition::Three);
    let (sender, receiver) = seat.channel(1).unwrap();
    let in_use = Err(Ended::Fault(Fault::IN_USE));
    assert_eq!(sender.reopen(&mut seat, 2), in_use);
    sender.send(&mut seat, 1).unwrap();
    sender.close(&mut seat).unwrap();
    assert_eq!(sender.reopen(&mut seat, 2), in_use);
    assert_eq!(receiver.recv(&mut seat), Ok(1.into()));
    assert_eq!(receiver.recv(&mut seat), Err(Ended::Drained(0)));
    let bad_cap = Err(Ended::Fault(Fault::BAD_CAP));
    assert_eq!(sender.reopen(&mut seat, 1025), bad_cap);
    assert_eq!(sender.reopen(&mut seat, 2), Ok(()));
    sender.send(&mut seat, 2).unwrap();
    sender.send(&mut seat, 3).unwrap();
    assert_eq!(
        hub.look_at(&receiver),
        Some(Counts {
            cap: 2,
            sent: 3,
            received: 1,
            closed: false
        })
    );
    assert_eq!(receiver.recv(&mut seat), Ok(2.into()));
    assert_eq!(receiver.recv(&mut seat), Ok(3.into()));
    let (_other, mut stranger) = one_seat(Edition::Three);
    let bad_call = Err(Ended::Fault(Fault::BAD_CALL));
    assert_eq!(sender.reopen(&mut stranger, 1), bad_call);
}

#[test]
fn only_edition_three_brings_back() {
    for edition in [Edition::One, Edition::Two] {
        let (_hub, mut seat) = one_seat(edition);
        let (sender, _) = seat.channel(0).unwrap();
        assert_eq!(seat.start(0).unwrap_err(), Fault::BAD_CALL);
        sender.close(&mut seat).unwrap();
        let bad_call = Err(Ended::Fault(Fault::BAD_CALL));
        assert_eq!(sender.reopen(&mut seat, 0), bad_call);
    }
}

#[test]
fn nobody_cancels_or_starts_the_clock() {
    let builder = Hub::builder(1).edition(Edition::Three).timeouts();
    let (_hub, mut seats) = builder.open().unwrap();
    assert_eq!(seats[0].cancel(1), Err(Fault::NO_PROCESS));
    assert_eq!(seats[0].start(1).unwrap_err(), Fault::NO_PROCESS);
}

#[test]
fn a_hub_tells_how_many_steps_are_left() {
    let (hub, mut seats) = Hub::open(Edition::One, 2, 3).unwrap();
    assert_eq!(hub.steps_left(), Some(3));
    seats[0].channel(0).unwrap();
    drop(seats.pop());
    assert_eq!(hub.steps_left(), Some(2));
    seats[0].channel(0).unwrap();
    seats[0].channel(0).unwrap();
    assert_eq!(hub.steps_left(), Some(0));
    assert_eq!(seats[0].channel(0), Err(Fault::JOURNAL_FULL));
    let (hub, _seats) = Hub::open_endless(Edition::One, 1, 3, Chapters::discard()).unwrap();
    assert_eq!(hub.steps_left(), None);
}

#[test]
fn a_seat_keeps_its_hub() {
    let (hub, mut seat) = one_seat(Edition::One);
    drop(hub);
    assert!(seat.channel(0).is_ok());
}

#[test]
fn a_dropped_seat_has_exited() {
    let (hub, seat) = one_seat(Edition::One);
    drop(seat);
    assert_eq!(
        hub.journal().unwrap(),
        "chanhub journal 1\nprocs 1\n0 exit\n"
    );
}

#[test]
fn things_go_by_number() {
    let (_hub, mut seat) = one_seat(Edition::One);
    let (sender, receiver) = seat.channel(1).unwrap();
    let table = Table::new();
    let number = table.put(&seat, String::from("a thing"));
    sender.send(&mut seat, number).unwrap();
    let value = receiver.recv(&mut seat).unwrap();
    assert_eq!(table.take(value).as_deref(), Some("a thing"));
    assert_eq!(table.take(value), None);
}

#[test]
fn a_table_keeps_the_values_of_several_hubs() {
    let seats = [one_seat(Edition::One).1, one_seat(Edition::One).1];
    let table = Table::new();
    let numbers = [0, 1, 0, 1].map(|of| table.put(&seats[of], of));
    assert_eq!(
        numbers.map(|number| table.take(number)),
        [0, 1, 0, 1].map(Some)
    );
}

#[test]
fn what_threads_share_may_be_shared() {
    fn may_go<T: Send>() {}
    fn may_be_shared<T: Send + Sync>() {}
    may_go::<Seat>();
    may_be_shared::<Hub>();
    may_be_shared::<Sender>();
    may_be_shared::<Table<String>>();
}
