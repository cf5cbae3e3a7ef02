#![doc = include_str!("../README.md")]
#![forbid(unsafe_code)]
#[cfg(any(feature = "log", feature = "tracing"))]
mod kept;
#[cfg(feature = "log")]
mod logger;
#[cfg(feature = "tracing")]
mod layer;

#[cfg(feature = "log")]
pub use logger::Logger;
#[cfg(feature = "tracing")]
pub use layer::FlightLayer;
