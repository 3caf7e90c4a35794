//! Stand-in for the crate `tracing`: the macros that the compiled modules name, logging nothing.

/// Logs nothing.
#[macro_export]
macro_rules! warn {
    ($($arguments:tt)*) => {};
}
