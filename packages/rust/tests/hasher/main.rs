//! Tests the hasher of maps: its blocks, its sizes, its states, and keys that derive `Hash`.

mod keys;
mod proved {
    mod blocks;
}
mod sizes;
mod states;
