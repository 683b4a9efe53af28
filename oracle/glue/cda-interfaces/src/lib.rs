//! The frame around the original's four files of `storage_api`.
#![allow(unused)]
pub mod storage_api;

#[macro_export]
macro_rules! spawn_named {
    ($name:expr, $future:expr) => {
        tokio::task::spawn($future)
    };
}
