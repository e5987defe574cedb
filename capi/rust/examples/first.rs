//! A first program: a value that is sent and received, and a receive that can never end.

use chanhub::{Edition, Ended, Hub};
use std::error::Error;

fn main() -> Result<(), Box<dyn Error>> {
    let (hub, mut seats) = Hub::open(Edition::Two, 1, 1000)?;
    let mut seat = seats.remove(0);
    let (sender, receiver) = seat.channel(1)?;
    sender.send(&mut seat, 9)?;
    println!("{}", receiver.recv(&mut seat)?.number().expect("a number"));
    if receiver.recv(&mut seat) == Err(Ended::Stalled) {
        print!("{}", hub.journal().ok_or("out of memory")?);
    }
    Ok(())
}
