//! A deadlock: each of two threads waits for the other to send first. Writes the journal to the file that it is given, if any.

use chanhub::{Edition, Ended, Hub};
use std::error::Error;
use std::{env, fs, thread};

fn main() -> Result<(), Box<dyn Error>> {
    let (hub, mut seats) = Hub::open(Edition::One, 2, 1000)?;
    let (to_right, from_left) = seats[0].channel(0)?;
    let (to_left, from_right) = seats[0].channel(0)?;
    let ends = [(from_right, to_right), (from_left, to_left)];
    let threads = seats.into_iter().zip(ends).map(|(mut seat, (from, to))| {
        thread::spawn(move || {
            let came = from
                .recv(&mut seat)
                .and_then(|value| to.send(&mut seat, value));
            assert_eq!(came, Err(Ended::Stalled));
            // Dropping the seat here would add an exit to the journal, after the calls that stalled.
            seat
        })
    });
    let threads: Vec<_> = threads.collect();
    let seats: Vec<_> = threads
        .into_iter()
        .map(|thread| thread.join().expect("a thread ends"))
        .collect();
    let journal = hub.journal().ok_or("no memory")?;
    drop(seats);
    let mut calls: Vec<_> = journal.lines().rev().take(2).collect();
    calls.sort();
    for call in calls {
        println!("stalled: {call}");
    }
    if let Some(file) = env::args_os().nth(1) {
        fs::write(file, &journal)?;
    }
    Ok(())
}
