//! The program of ../typed.rs with crossbeam's channels. Cargo does not build this file here, since the crate has no dependencies.

use crossbeam_channel::{bounded, select};
use std::error::Error;
use std::thread;

fn main() -> Result<(), Box<dyn Error>> {
    let (jobs, todo) = bounded::<u64>(2);
    let (squares, from_squares) = bounded::<u64>(0);
    let (reports, from_reports) = bounded::<String>(0);
    thread::spawn(move || {
        for job in 1..=10 {
            jobs.send(job).expect("the consumer receives");
        }
    });
    thread::spawn(move || {
        let mut count = 0;
        for job in todo.iter() {
            squares.send(job * job).expect("main receives");
            count += 1;
        }
        let report = format!("{count} jobs");
        reports.send(report).expect("main receives");
    });
    let (mut sum, mut report) = (0, String::new());
    for _ in 0..11 {
        select! {
            recv(from_squares) -> square => sum += square?,
            recv(from_reports) -> text => report = text?,
        }
    }
    println!("{report} {sum}");
    Ok(())
}
