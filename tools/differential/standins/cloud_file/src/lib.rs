//! Stand-in for the error type that the original's error enum names. No value of it can be made.
#[derive(Debug)]
pub enum CloudFileError {}

impl std::fmt::Display for CloudFileError {
    fn fmt(&self, _: &mut std::fmt::Formatter<'_>) -> std::fmt::Result {
        match *self {}
    }
}

impl std::error::Error for CloudFileError {}
