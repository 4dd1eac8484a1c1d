//! Tests that cross crates, as those of `pkrows`, whose sources and verdicts they share. They are
//! compiled with checks and run, without a proof: `tests/crates.py` does that.
#[cfg(test)]
mod bounds;
#[cfg(test)]
mod costs;
#[cfg(test)]
mod giving;
#[cfg(test)]
mod judging;
#[cfg(test)]
mod large;
#[cfg(test)]
mod lengths;
#[cfg(test)]
mod limited;
#[cfg(test)]
mod listed;
#[cfg(test)]
mod loaded_rows;
#[cfg(test)]
mod machines;
#[cfg(test)]
mod numbered;
#[cfg(test)]
mod old_strings;
#[cfg(test)]
mod paths;
#[cfg(test)]
mod printed;
#[cfg(test)]
mod readers;
#[cfg(test)]
mod requests;
#[cfg(test)]
mod sizes;
#[cfg(test)]
mod stacked;
#[cfg(test)]
mod tables;
