pub use oracle_derive::{FromTLV, ToTLV};

pub trait FromTLV {}

pub trait ToTLV {}

pub trait TLVBuilderParent {}

pub struct Nullable<T>(pub Option<T>);

impl<T> Nullable<T> {
    pub fn new(value: Option<T>) -> Self {
        Self(value)
    }
}
