//! Words made from addresses, on a machine whose threads share no word that a program may set. Each state makes its
//! secrets.

pub(crate) use crate::held::Kept;
use crate::held::Secrets;
use crate::rng::rapidrng_fast;
use crate::seeding::{GlobalSecrets, SeedSource};

/// Returns the words of this process.
fn words() -> [u64; 2] {
    static PLACE: u8 = 0;
    let mut state = std::ptr::addr_of!(PLACE) as u64;
    [(); 2].map(|()| rapidrng_fast(&mut state))
}

/// Returns a seed with the secrets of this process.
pub(crate) fn of_process(seed: u64) -> Kept<'static> {
    Kept { seed, secrets: Secrets::from(*GlobalSecrets::new(words()[0]).get()) }
}

/// Returns the single seed of this process, with its secrets.
pub(crate) fn global() -> Kept<'static> {
    of_process(GlobalSecrets::new(words()[0]).get_global_seed())
}

/// Returns a seed made from the words of the process and the address of the stack, with the secrets of the process.
pub(crate) fn next() -> Kept<'static> {
    let [first, second] = words();
    let stack = rapidrng_fast(&mut (std::ptr::addr_of!(first) as u64));
    let word = rapidrng_fast(&mut { second }) ^ stack;
    of_process(SeedSource::new(&GlobalSecrets::new(first), word).next())
}
