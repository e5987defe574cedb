//! The macro `select!`.

use chanhub::typed::{channel, SendError};
use chanhub::{select, Ended, Fault, Hub, Seat};
use std::rc::Rc;
use std::time::Duration;

const SOON: Duration = Duration::from_millis(5);

fn seat() -> Seat {
    let (_hub, mut seats) = Hub::builder(1).timeouts().open().unwrap();
    seats.remove(0)
}

#[test]
fn the_arm_of_the_case_that_fired_runs() -> Result<(), Ended> {
    let seat = seat();
    let (words, from_words) = channel::<String>(&seat, 1)?;
    let (numbers, from_numbers) = channel::<u64>(&seat, 1)?;
    let (words, from_words) = (words.bind(&seat), from_words.bind(&seat));
    let (numbers, from_numbers) = (numbers.bind(&seat), from_numbers.bind(&seat));
    words.send("seven".to_string())?;
    let mut ran = Vec::new();
    for _ in 0..3 {
        let told = select! {
            recv(from_words) -> word => format!("got {}", word?),
            send(numbers, 7) -> sent => { sent?; "sent".to_string() }
            default => "neither".to_string(),
        };
        ran.push(told?);
    }
    assert_eq!(ran[2], "neither");
    ran.sort();
    assert_eq!(ran, ["got seven", "neither", "sent"]);
    assert_eq!(from_numbers.recv(), Ok(7));
    Ok(())
}

#[test]
fn an_arm_gets_what_the_call_of_its_case_would_return() -> Result<(), Ended> {
    let seat = seat();
    let (sender, receiver) = channel::<String>(&seat, 1)?;
    let (sender, receiver) = (sender.bind(&seat), receiver.bind(&seat));
    sender.send("last".to_string())?;
    sender.close()?;
    assert_eq!(
        select!(recv(receiver) -> came => came),
        Ok(Ok("last".to_string()))
    );
    assert_eq!(
        select!(recv(receiver) -> came => came),
        Ok(Err(Ended::Drained(0)))
    );
    let back = select!(send(sender, "more".to_string()) -> sent => sent)?;
    let (value, ended) = ("more".to_string(), Ended::Closed(0));
    assert!(back == Err(SendError { value, ended }));
    Ok(())
}

#[test]
fn a_default_waits_for_its_timeout() -> Result<(), Ended> {
    let seat = seat();
    let (sender, receiver) = channel::<u64>(&seat, 1)?;
    let (sender, receiver) = (sender.bind(&seat), receiver.bind(&seat));
    let began = std::time::Instant::now();
    let told = select! {
        recv(receiver) -> number => Some(number?),
        default(SOON) => None,
    };
    assert_eq!(told, Ok(None));
    assert!(began.elapsed() >= SOON);
    sender.send(9)?;
    let told = select! {
        recv(receiver) -> number => Some(number?),
        default(SOON) => None,
    };
    assert_eq!(told, Ok(Some(9)));
    Ok(())
}

#[test]
fn no_arm_runs_if_the_select_ends() -> Result<(), Ended> {
    let seat = seat();
    let (never, receiver) = channel::<u64>(&seat, 0)?;
    let (sender, _full) = channel::<Rc<()>>(&seat, 0)?;
    let (receiver, sender) = (receiver.bind(&seat), sender.bind(&seat));
    let value = Rc::new(());
    let told = select! {
        recv(receiver) -> number => panic!("got {number:?}"),
        send(sender, Rc::clone(&value)) -> sent => panic!("{sent:?}"),
    };
    assert_eq!(told, Err(Ended::Stalled));
    assert_eq!(Rc::strong_count(&value), 1); // what was not sent is dropped
    drop(never);
    Ok(())
}

/// Adds up what comes until the channel is closed, but no 3, and leaves at a 9.
fn sum_until_9(seat: &Seat, numbers: &[u64]) -> Result<u64, Ended> {
    let (sender, receiver) = channel::<u64>(seat, 10)?;
    let (sender, receiver) = (sender.bind(seat), receiver.bind(seat));
    for &number in numbers {
        sender.send(number)?;
    }
    drop(sender);
    let mut sum = 0;
    loop {
        select! {
            recv(receiver) -> number => match number {
                Ok(3) => continue,
                Ok(9) => return Ok(100 + sum),
                Ok(number) => sum += number,
                Err(Ended::Drained(_)) => break,
                Err(ended) => return Err(ended),
            },
        }?;
    }
    Ok(sum)
}

#[test]
fn an_arm_may_leave_a_loop_and_a_function() {
    let seat = seat();
    assert_eq!(sum_until_9(&seat, &[1, 3, 5]), Ok(6));
    assert_eq!(sum_until_9(&seat, &[1, 3, 5, 9, 7]), Ok(106));
}

#[test]
fn each_of_16_cases_has_its_arm() -> Result<(), Ended> {
    let seat = seat();
    let mut ends = Vec::new();
    for _ in 0..16 {
        let (sender, receiver) = channel::<usize>(&seat, 1)?;
        ends.push((sender.bind(&seat), receiver.bind(&seat)));
    }
    for (index, (sender, _)) in ends.iter().enumerate() {
        sender.send(100 + index)?;
        let fired = select! {
            recv(ends[0].1) -> came => (0, came?), recv(ends[1].1) -> came => (1, came?),
            recv(ends[2].1) -> came => (2, came?), recv(ends[3].1) -> came => (3, came?),
            recv(ends[4].1) -> came => (4, came?), recv(ends[5].1) -> came => (5, came?),
            recv(ends[6].1) -> came => (6, came?), recv(ends[7].1) -> came => (7, came?),
            recv(ends[8].1) -> came => (8, came?), recv(ends[9].1) -> came => (9, came?),
            recv(ends[10].1) -> came => (10, came?), recv(ends[11].1) -> came => (11, came?),
            recv(ends[12].1) -> came => (12, came?), recv(ends[13].1) -> came => (13, came?),
            recv(ends[14].1) -> came => (14, came?), recv(ends[15].1) -> came => (15, came?),
        };
        assert_eq!(fired, Ok((index, 100 + index)));
    }
    Ok(())
}

#[test]
fn an_end_of_another_hub_is_refused() -> Result<(), Ended> {
    let (seat, other) = (seat(), seat());
    let (_sender, receiver) = channel::<u64>(&seat, 1)?;
    let (_other_sender, other_receiver) = channel::<u64>(&other, 1)?;
    let (receiver, other_receiver) = (receiver.bind(&seat), other_receiver.bind(&other));
    let told = select! {
        recv(receiver) -> came => came,
        recv(other_receiver) -> came => came,
        default => Ok(0),
    };
    assert_eq!(told, Err(Ended::Fault(Fault::BAD_CALL)));
    Ok(())
}
