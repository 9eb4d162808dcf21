//! `Debug` of what holds secrets or parts of a message: the name of the type, and nothing else.

use crate::inner::{GlobalSecrets, RapidHasher, SeedSource};
use crate::secrets::{RapidSecrets, v1};
use crate::v3::{RapidStream, RapidStreamHasherLanes};
use std::fmt::{Debug, Formatter, Result};

/// Implements `Debug` for types, which have parameters.
macro_rules! shown {
    ($([$($parameters:tt)*] $name:literal $shown:ty,)*) => {
        $(
            impl<$($parameters)*> Debug for $shown {
                fn fmt(&self, f: &mut Formatter<'_>) -> Result {
                    f.debug_struct($name).finish_non_exhaustive()
                }
            }
        )*
    };
}

impl<const LANES: usize, const AVALANCHE: bool, const PROTECTED: bool> Debug
    for RapidStreamHasherLanes<'_, LANES, AVALANCHE, PROTECTED>
{
    fn fmt(&self, f: &mut Formatter<'_>) -> Result {
        let name = match LANES {
            7 if AVALANCHE && !PROTECTED => "RapidStreamHasherV3",
            7 => "RapidStreamHasherInlineV3",
            5 => "RapidStreamHasherInlineMicro",
            _ => "RapidStreamHasherInlineNano",
        };
        f.debug_struct(name).finish_non_exhaustive()
    }
}

shown! {
    [] "RapidSecrets" RapidSecrets,
    [] "RapidSecrets" v1::RapidSecrets,
    [] "GlobalSecrets" GlobalSecrets,
    [] "SeedSource" SeedSource,
    [] "RapidStream" RapidStream<'_>,
    [const AVALANCHE: bool, const SPONGE: bool, const COMPACT: bool, const PROTECTED: bool]
        "RapidHasher" RapidHasher<'_, AVALANCHE, SPONGE, COMPACT, PROTECTED>,
}
