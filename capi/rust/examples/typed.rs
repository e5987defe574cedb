//! A producer, a consumer, and a select of both their results. crossbeam/typed.rs is the same program with crossbeam's channels.

use chanhub::{select, typed, Edition, Hub, Seat};
use std::error::Error;
use std::thread;

fn main() -> Result<(), Box<dyn Error>> {
    let (_hub, seats) = Hub::open(Edition::Two, 3, 1000)?;
    let [boss, producer, consumer] = <[Seat; 3]>::try_from(seats).expect("three seats");
    let (jobs, todo) = typed::channel::<u64>(&boss, 2)?;
    let (squares, from_squares) = typed::channel::<u64>(&boss, 0)?;
    let (reports, from_reports) = typed::channel::<String>(&boss, 0)?;
    thread::spawn(move || {
        let jobs = jobs.bind(&producer);
        for job in 1..=10 {
            jobs.send(job).expect("the consumer receives");
        }
    });
    thread::spawn(move || {
        let (squares, reports) = (squares.bind(&consumer), reports.bind(&consumer));
        let mut count = 0;
        for job in todo.bind(&consumer).iter().map(Result::unwrap) {
            squares.send(job * job).expect("main receives");
            count += 1;
        }
        let report = format!("{count} jobs");
        reports.send(report).expect("main receives");
    });
    let (from_squares, from_reports) = (from_squares.bind(&boss), from_reports.bind(&boss));
    let (mut sum, mut report) = (0, String::new());
    for _ in 0..11 {
        select! {
            recv(from_squares) -> square => sum += square?,
            recv(from_reports) -> text => report = text?,
        }?;
    }
    println!("{report} {sum}");
    Ok(())
}
