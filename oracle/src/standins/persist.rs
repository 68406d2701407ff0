//! A store that is always empty: settings are lent by src/inside.rs, not loaded.

use super::error::Error;
use super::tlv::{FromTLV, ToTLV};

pub trait KvBlobStoreAccess {}

impl KvBlobStoreAccess for () {}

pub struct Persist;

impl Persist {
    pub fn new(_kv: impl KvBlobStoreAccess) -> Self {
        Self
    }

    pub fn load_tlv<T: FromTLV>(self, _key: u16) -> Result<Option<T>, Error> {
        Ok(None)
    }

    pub fn store_tlv(self, _key: u16, _value: impl ToTLV) -> Result<(), Error> {
        Ok(())
    }

    pub fn remove(self, _key: u16) -> Result<(), Error> {
        Ok(())
    }
}
