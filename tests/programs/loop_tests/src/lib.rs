//! Tests of loops, worlds and printed texts that are no rows: devices of the machine, writers that fail, recordings, and memory that
//! is refused.

#[cfg(test)]
mod clocks;
#[cfg(test)]
mod loops;
#[cfg(test)]
mod network;
#[cfg(test)]
mod outputs;
#[cfg(test)]
mod recordings;
#[cfg(test)]
mod texts;
#[cfg(test)]
mod worlds;
