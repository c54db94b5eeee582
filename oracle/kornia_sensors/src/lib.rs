//! The Rust's sensor files, unchanged, from where oracle/rust-files puts them.
#[path = "../../target/rust/kornia-sensors/src/imu.rs"]
pub mod imu;
#[path = "../../target/rust/kornia-sensors/src/wheel.rs"]
pub mod wheel;
