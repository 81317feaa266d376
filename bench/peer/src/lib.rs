//! The store in plain Rust over `serde_json`, `sha2`, `base64` and `hex`, to measure ours against. It gives the same
//! answers, is straightforward, and is not tuned. Each benchmark has a program of its own in `bin/`.
pub mod closure;
pub mod document;
pub mod line;
pub mod messages;
pub mod names;
pub mod receipt;
pub mod replica;
pub mod session;
pub mod snapshot;
pub mod stream;
pub mod sums;
