//! The part of the interface of rand_core 0.9 that compat implements.

pub trait RngCore {
    fn next_u32(&mut self) -> u32;
    fn next_u64(&mut self) -> u64;
    fn fill_bytes(&mut self, bytes: &mut [u8]);
}

pub trait SeedableRng: Sized {
    type Seed: Clone + Default + AsRef<[u8]> + AsMut<[u8]>;

    fn from_seed(seed: Self::Seed) -> Self;
    fn seed_from_u64(state: u64) -> Self;
}

pub mod impls {
    use super::RngCore;

    /// Fills the bytes with words, each from its lowest byte on.
    pub fn fill_bytes_via_next<R: RngCore + ?Sized>(rng: &mut R, bytes: &mut [u8]) {
        for part in bytes.chunks_mut(8) {
            part.copy_from_slice(&rng.next_u64().to_le_bytes()[..part.len()]);
        }
    }
}
