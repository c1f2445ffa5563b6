//! Stand-in for `tracing`: logs nothing.

#[macro_export]
macro_rules! debug {
    ($($log:tt)*) => {};
}

#[macro_export]
macro_rules! warn {
    ($($log:tt)*) => {};
}
