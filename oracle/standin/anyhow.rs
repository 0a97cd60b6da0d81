//! Stand-in for `anyhow`: the nine files use it only to parse solver output, which is never run here.

use std::fmt;

#[derive(Debug)]
pub struct Error(pub String);

pub type Result<T> = std::result::Result<T, Error>;

impl<E: fmt::Debug + std::error::Error> From<E> for Error {
    fn from(e: E) -> Self {
        Error(format!("{e:?}"))
    }
}

pub trait Context<T> {
    fn context<C: fmt::Display>(self, context: C) -> Result<T>;
    fn with_context<C: fmt::Display, F: FnOnce() -> C>(self, context: F) -> Result<T>;
}

impl<T, E: fmt::Debug> Context<T> for std::result::Result<T, E> {
    fn context<C: fmt::Display>(self, context: C) -> Result<T> {
        self.map_err(|e| Error(format!("{context}: {e:?}")))
    }

    fn with_context<C: fmt::Display, F: FnOnce() -> C>(self, context: F) -> Result<T> {
        self.context(context())
    }
}

#[macro_export]
macro_rules! bail {
    ($($e:tt)+) => { return Err($crate::Error(format!("{:?}", ($($e)+)))) };
}

#[macro_export]
macro_rules! ensure {
    ($c:expr, $($e:tt)+) => { if !$c { $crate::bail!($($e)+) } };
}
