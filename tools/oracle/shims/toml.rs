// Stands in for the crate `toml`: nothing is read or written.
#[derive(Debug)]
pub struct Error;

impl std::fmt::Display for Error {
    fn fmt(&self, f: &mut std::fmt::Formatter<'_>) -> std::fmt::Result {
        f.write_str("no toml here")
    }
}

impl std::error::Error for Error {}

pub fn from_str<T>(_: &str) -> Result<T, Error> {
    Err(Error)
}

pub fn to_string<T>(_: &T) -> Result<String, Error> {
    Err(Error)
}
