//! Stands in for tracing: the logging macros do nothing. Logging is not compared.

#[macro_export]
macro_rules! trace {
    ($($arguments:tt)*) => {};
}

#[macro_export]
macro_rules! debug {
    ($($arguments:tt)*) => {};
}

#[macro_export]
macro_rules! info {
    ($($arguments:tt)*) => {};
}

#[macro_export]
macro_rules! warn {
    ($($arguments:tt)*) => {};
}

#[macro_export]
macro_rules! error {
    ($($arguments:tt)*) => {};
}
