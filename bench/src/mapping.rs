//! The Rust's files of wheel factors, unchanged, from where oracle/rust-files puts them.
#[path = "../../oracle/target/rust/kornia-slam/src/mapping/robust.rs"]
pub mod robust;
#[path = "../../oracle/target/rust/kornia-slam/src/mapping/stationary.rs"]
pub mod stationary;
#[path = "../../oracle/target/rust/kornia-slam/src/mapping/wheel_odom.rs"]
pub mod wheel_odom;
