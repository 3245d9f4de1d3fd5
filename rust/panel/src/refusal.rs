//! Refusals.

use std::{error, fmt};

use crate::raw::Words;

/// Document 01: "A refusal returns number and place."
#[derive(Clone, Copy, Debug, PartialEq, Eq, Hash)]
pub struct Refusal {
    pub number: u16,
    pub place: usize,
}

impl Refusal {
    /// The refusal that the library's number and place say, none if the number is 0.
    pub(crate) fn said(number: u64, place: u64) -> Result<(), Refusal> {
        if number == 0 {
            return Ok(());
        }
        Err(Refusal {
            number: number as u16,
            place: place as usize,
        })
    }
}

/// What a function of the library gives, unless it refuses.
pub(crate) fn given(call: impl FnOnce(&mut Words) -> u64) -> Result<u64, Refusal> {
    let mut words = [0; 3];
    let given = call(&mut words);
    let [number, place, _] = words;
    Refusal::said(number, place)?;
    Ok(given)
}

/// What a function of the library gives and puts into an array, unless it refuses.
pub(crate) fn given_with<T: Copy + Default, const LENGTH: usize>(
    call: impl FnOnce(&mut [T; LENGTH], &mut Words) -> u64,
) -> Result<(u64, [T; LENGTH]), Refusal> {
    let mut array = [T::default(); LENGTH];
    let given = given(|refusal| call(&mut array, refusal))?;
    Ok((given, array))
}

impl fmt::Display for Refusal {
    /// The line that the programs write.
    fn fmt(&self, f: &mut fmt::Formatter<'_>) -> fmt::Result {
        write!(f, "refused {} at {}", self.number, self.place)
    }
}

impl error::Error for Refusal {}
