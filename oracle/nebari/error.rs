//! The module's errors, as messages.
use std::fmt::{self, Debug, Display};

#[derive(Debug)]
pub struct Error(pub String);

impl Error {
    pub fn data_integrity(m: impl Display) -> Error {
        Error(format!("data integrity: {}", m))
    }
}
impl Display for Error {
    fn fmt(&self, f: &mut fmt::Formatter<'_>) -> fmt::Result {
        f.write_str(&self.0)
    }
}

#[derive(Debug)]
pub struct ErrorKind(String);

impl ErrorKind {
    pub fn message(m: impl Display) -> ErrorKind {
        ErrorKind(m.to_string())
    }
}
impl From<ErrorKind> for Error {
    fn from(k: ErrorKind) -> Error {
        Error(k.0)
    }
}
impl From<std::io::Error> for Error {
    fn from(e: std::io::Error) -> Error {
        Error(e.to_string())
    }
}

#[derive(Debug)]
pub enum AbortError<E: Display + Debug> {
    Nebari(Error),
    Other(E),
}
impl<E: Display + Debug> From<Error> for AbortError<E> {
    fn from(e: Error) -> Self {
        AbortError::Nebari(e)
    }
}
impl From<AbortError<std::convert::Infallible>> for Error {
    fn from(e: AbortError<std::convert::Infallible>) -> Error {
        match e {
            AbortError::Nebari(e) => e,
            AbortError::Other(_) => unreachable!(),
        }
    }
}
