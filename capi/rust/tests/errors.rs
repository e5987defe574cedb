//! What a Rust program expects of errors, and what they say.

use chanhub::{Edition, Ended, Fault, Hub, OpenError, Seat, Table, TooLong, Value};
use std::error::Error;

fn one_seat() -> (Hub, Seat) {
    let (hub, mut seats) = Hub::open(Edition::One, 1, 100).unwrap();
    (hub, seats.remove(0))
}

#[test]
fn faults_say_what_their_numbers_mean() {
    let said = [
        "fault 1: no such process",
        "fault 2: the process has exited",
        "fault 3: a call of the process is still open",
        "fault 4: more than 8 cases in edition 1",
        "fault 5: no such port",
        "fault 6: the capacity is above 1,024",
        "fault 7: the hub already has 64 ports",
        "fault 8: close of port 0",
        "fault 9: close of a closed port",
        "fault 10: the hub has reached its step limit",
        "fault 11: out of memory",
        "fault 12: the process has no waiting call to cancel",
        "fault 13: a channel of another hub, more than 16 cases, a call that needs another edition or timeouts, or a cut of a hub that ends",
        "fault 14: the journal that the hub follows has another step here",
        "fault 15: other steps come first in the journal that the hub follows",
        "fault 16: the port is in use",
        "fault 17: the process has not exited",
        "fault 18: a number that chanhub.h does not define",
    ];
    for (number, said) in (1..).zip(said) {
        assert_eq!(Fault(number).to_string(), said);
        assert_eq!(Ended::Fault(Fault(number)).to_string(), said);
    }
}

#[test]
fn ends_and_refusals_say_what_happened() {
    assert_eq!(Ended::Closed(0).to_string(), "send on a closed port");
    assert_eq!(
        Ended::Drained(0).to_string(),
        "receive from a port that is closed and empty"
    );
    assert_eq!(Ended::Stalled.to_string(), "every process was waiting");
    assert_eq!(
        Ended::Cancelled.to_string(),
        "another process cancelled the call"
    );
    assert_eq!(
        OpenError::Procs.to_string(),
        "the number of processes must be between 1 and 64, or 63 with timeouts"
    );
    assert_eq!(
        OpenError::Limit.to_string(),
        "the step limit must be between 1 and 1,000,000"
    );
    assert_eq!(
        OpenError::Keep.to_string(),
        "the number of steps to keep must be between 1 and 900,000"
    );
    assert_eq!(OpenError::Memory.to_string(), "out of memory");
    assert_eq!(TooLong.to_string(), "a value has at most 32 bytes");
}

/// The numbers of chanhub.h, by their names there.
#[test]
fn faults_are_numbered_as_in_the_header() {
    let header = include_str!("../../chanhub.h");
    let (_, reasons) = header.split_once("enum {\n    CHANHUB_NO_PROCESS").unwrap();
    let (reasons, _) = reasons.split_once("};").unwrap();
    let reasons: Vec<_> = format!("CHANHUB_NO_PROCESS{reasons}")
        .lines()
        .map(|line| line.trim().to_string())
        .filter(|line| line.starts_with("CHANHUB_"))
        .collect();
    let named = [
        ("NO_PROCESS", Fault::NO_PROCESS),
        ("GONE", Fault::GONE),
        ("BUSY", Fault::BUSY),
        ("TOO_MANY_CASES", Fault::TOO_MANY_CASES),
        ("NO_PORT", Fault::NO_PORT),
        ("BAD_CAP", Fault::BAD_CAP),
        ("TOO_MANY_PORTS", Fault::TOO_MANY_PORTS),
        ("NIL_CLOSE", Fault::NIL_CLOSE),
        ("ALREADY_CLOSED", Fault::ALREADY_CLOSED),
        ("JOURNAL_FULL", Fault::JOURNAL_FULL),
        ("NO_MEMORY", Fault::NO_MEMORY),
        ("NOT_PARKED", Fault::NOT_PARKED),
        ("BAD_CALL", Fault::BAD_CALL),
        ("DIVERGED", Fault::DIVERGED),
        ("NOT_YET", Fault::NOT_YET),
        ("IN_USE", Fault::IN_USE),
        ("NOT_GONE", Fault::NOT_GONE),
    ];
    assert_eq!(reasons.len(), named.len());
    for (reason, (name, fault)) in reasons.iter().zip(named) {
        let said = format!("CHANHUB_{name} = {},", fault.0);
        assert!(reason.starts_with(&said), "{reason}: {said}");
    }
}

#[test]
fn errors_go_where_rust_takes_errors() {
    fn is_error<E: Error + Send + Sync + 'static>() {}
    is_error::<Ended>();
    is_error::<Fault>();
    is_error::<OpenError>();
    is_error::<TooLong>();
}

#[test]
fn one_question_mark_passes_all_errors_on() {
    fn to_ended(seat: &mut Seat) -> Result<(), Ended> {
        let (sender, receiver) = seat.channel(1)?;
        sender.send(seat, 1)?;
        sender.close(seat)?;
        receiver.recv(seat)?;
        seat.cancel(0)?;
        Ok(())
    }
    fn to_box(seat: &mut Seat) -> Result<(), Box<dyn Error + Send + Sync>> {
        let value = Value::try_from(&[0u8; 33][..])?;
        let (sender, _) = seat.channel(1)?;
        sender.send(seat, value)?;
        Ok(())
    }
    let (_hub, mut seat) = one_seat();
    // Edition 1 has no cancel.
    assert_eq!(to_ended(&mut seat), Err(Ended::Fault(Fault::BAD_CALL)));
    let refused = to_box(&mut seat).unwrap_err();
    assert_eq!(refused.downcast_ref::<TooLong>(), Some(&TooLong));
}

#[test]
fn hubs_and_seats_show_whose_a_channel_is() {
    let (hub, mut seat) = one_seat();
    let (sender, _) = seat.channel(0).unwrap();
    let id = format!("{hub:?}")
        .trim_start_matches("Hub { id: ")
        .trim_end_matches(" }")
        .to_string();
    assert!(id.parse::<u64>().is_ok(), "{hub:?}");
    assert_eq!(format!("{seat:?}"), format!("Seat {{ hub: {id}, pid: 0 }}"));
    assert_eq!(
        format!("{sender:?}"),
        format!("Sender {{ hub: {id}, port: 1 }}")
    );
}

#[test]
fn what_the_crate_gives_can_be_shown() {
    let (_hub, mut seat) = one_seat();
    let (_, receiver) = seat.channel(0).unwrap();
    assert!(format!("{:?}", receiver.drain(&mut seat)).starts_with("Drain { receiver: Receiver"));
    let table = Table::new();
    table.put(&seat, "a thing");
    assert!(format!("{table:?}").contains("\"a thing\""));
    // So that a result with a hub in it can be unwrapped for its error.
    assert_eq!(Hub::open(Edition::One, 0, 1).unwrap_err(), OpenError::Procs);
}
