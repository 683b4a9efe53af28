//! Stand-in for rkyv: bytes come from and go to `Payload`, which the glue implements for `Operation` by document 01.
pub use rkyv_derive::{Archive, Deserialize, Serialize};

pub mod rancor {
    #[derive(Debug)]
    pub struct Error(pub &'static str);

    impl std::fmt::Display for Error {
        fn fmt(&self, f: &mut std::fmt::Formatter) -> std::fmt::Result {
            f.write_str(self.0)
        }
    }
}

pub trait Payload: Sized {
    fn encode(&self) -> Result<Vec<u8>, rancor::Error>;
    fn decode(bytes: &[u8]) -> Result<Self, rancor::Error>;
}

pub fn to_bytes<T: Payload>(value: &T) -> Result<Vec<u8>, rancor::Error> {
    value.encode()
}

pub fn from_bytes<T: Payload>(bytes: &[u8]) -> Result<T, rancor::Error> {
    T::decode(bytes)
}
