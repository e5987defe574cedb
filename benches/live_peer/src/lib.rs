//! A plain hub of Go's channels under one lock, for Rust and for C.

pub mod c;
#[cfg(feature = "compact")]
mod compact;
pub mod hub;
mod text;
pub mod value;

#[cfg(all(feature = "bytes", feature = "compact"))]
compile_error!("the compact journal has no room for bytes");
