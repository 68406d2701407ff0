#[derive(Clone, Copy, Debug, Eq, PartialEq)]
pub enum ErrorCode {
    ConstraintError,
    InvalidCommand,
    CommandNotFound,
    /// A request that its decoder cannot read.
    InvalidRequest,
}

#[derive(Clone, Copy, Debug)]
pub struct Error(ErrorCode);

impl Error {
    pub fn code(self) -> ErrorCode {
        self.0
    }
}

impl From<ErrorCode> for Error {
    fn from(code: ErrorCode) -> Self {
        Self(code)
    }
}
