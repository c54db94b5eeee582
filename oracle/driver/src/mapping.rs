//! The Rust's mapping files, unchanged, from where oracle/rust-files puts them. They stand in this crate so that what they keep to their own
//! crate can be called.
#![allow(dead_code)]
#[path = "../../target/rust/kornia-slam/src/mapping/robust.rs"]
pub mod robust;
#[path = "../../target/rust/kornia-slam/src/mapping/stationary.rs"]
pub mod stationary;
#[path = "../../target/rust/kornia-slam/src/mapping/wheel_odom.rs"]
pub mod wheel_odom;
