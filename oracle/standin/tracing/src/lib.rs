//! Stand-in for tracing: messages are dropped.
#[macro_export]
macro_rules! debug {
    ($($t:tt)*) => {{}};
}
#[macro_export]
macro_rules! info {
    ($($t:tt)*) => {{}};
}
#[macro_export]
macro_rules! warn {
    ($($t:tt)*) => {{}};
}
