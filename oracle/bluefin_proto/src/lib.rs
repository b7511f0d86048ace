//! Stands in for the crate `bluefin_proto`: the names of it that the eight files use, and no more.

pub type BluefinResult<T> = Result<T, error::BluefinError>;

pub mod error {
    #[derive(Debug, Clone, PartialEq, Eq)]
    pub enum BluefinError {
        BufferEmptyError,
        BufferFullError(String),
        ConnectionClosed,
        DeserialiseError(String),
        ReadError(&'static str),
        Unexpected(String),
        UnexpectedPacketNumberError,
        WriteError(&'static str),
    }

    impl From<std::io::Error> for BluefinError {
        fn from(error: std::io::Error) -> Self {
            BluefinError::Unexpected(error.to_string())
        }
    }
}

pub mod context {
    /// The two hosts that the files name, and one for every other.
    #[derive(Debug, Clone, Copy, PartialEq, Eq)]
    pub enum BluefinHost {
        PackLeader,
        Client,
        Other,
    }
}
