//! A select with a default: it receives 5 or sends 7, as a random word chooses, until neither can proceed.

use chanhub::{Case, Edition, Hub, Selected};
use std::collections::hash_map::RandomState;
use std::error::Error;
use std::hash::{BuildHasher, Hasher};

/// A word of the standard library's random keys.
fn random_word() -> u64 {
    RandomState::new().build_hasher().finish()
}

fn main() -> Result<(), Box<dyn Error>> {
    let (_hub, mut seats) = Hub::open(Edition::One, 1, 1000)?;
    let mut seat = seats.remove(0);
    let (to_jobs, jobs) = seat.channel(1)?;
    let (results, _) = seat.channel(1)?;
    to_jobs.send(&mut seat, 5)?;
    let cases = [Case::Recv(jobs), Case::Send(results, 7.into())];
    loop {
        match seat.select(&cases, true, random_word())? {
            Selected::Got(_, value) => println!("got {}", value.number().expect("a number")),
            Selected::Sent(_) => println!("sent"),
            Selected::Default => break,
        }
    }
    println!("neither");
    Ok(())
}
