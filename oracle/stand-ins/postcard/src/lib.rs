//! Stand-in for postcard. Its bytes are not imitated: encoding keeps a copy of the value and
//! gives a ticket of eight bytes for it, decoding takes the value out again.

use std::any::Any;
use std::cell::RefCell;
use std::collections::BTreeMap;
use std::fmt;

use serde::Serialize;
use serde::de::DeserializeOwned;

#[derive(Default)]
struct Kept {
    last: u64,
    values: BTreeMap<u64, Box<dyn Any>>,
}

thread_local! {
    static KEPT: RefCell<Kept> = RefCell::default();
}

/// No value of the asked type belongs to the bytes.
#[derive(Debug)]
pub struct Error;

impl fmt::Display for Error {
    fn fmt(&self, f: &mut fmt::Formatter<'_>) -> fmt::Result {
        f.write_str("no such value")
    }
}

/// Keeps `value`; the bytes are its ticket.
pub fn to_allocvec<T: Serialize>(value: &T) -> Result<Vec<u8>, Error> {
    KEPT.with_borrow_mut(|kept| {
        kept.last += 1;
        kept.values.insert(kept.last, Box::new(value.clone()));
        Ok(kept.last.to_le_bytes().to_vec())
    })
}

/// Takes out the value whose ticket `bytes` is.
pub fn from_bytes<T: DeserializeOwned>(bytes: &[u8]) -> Result<T, Error> {
    let ticket = u64::from_le_bytes(bytes.try_into().map_err(|_| Error)?);
    let value = KEPT.with_borrow_mut(|kept| kept.values.remove(&ticket));
    let value = value.ok_or(Error)?.downcast::<T>().map_err(|_| Error)?;
    Ok(*value)
}

/// Forgets every value that nobody decoded.
pub fn forget() {
    KEPT.with_borrow_mut(|kept| kept.values.clear());
}
