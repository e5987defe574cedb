//! The calls of `alone` in c_times.c, from Rust, so that their instructions can be counted: `rust_peer CALLS`.

use chanhub::{Edition, Hub};
use std::env;
use std::error::Error;

/// How many places are filled and emptied in turn.
const PLACES: u64 = 100;

fn main() -> Result<(), Box<dyn Error>> {
    let calls: u64 = env::args().nth(1).ok_or("rust_peer CALLS")?.parse()?;
    let (_hub, mut seats) = Hub::open(Edition::One, 1, 1_000_000)?;
    let seat = &mut seats[0];
    let (sender, receiver) = seat.channel(1024)?;
    for first in (0..calls / 2).step_by(PLACES as usize) {
        for number in first..first + PLACES {
            sender.send(seat, number)?;
        }
        for number in first..first + PLACES {
            if receiver.recv(seat)?.number() != Some(number) {
                return Err("a wrong answer".into());
            }
        }
    }
    Ok(())
}
