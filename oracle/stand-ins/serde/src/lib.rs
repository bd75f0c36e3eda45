//! Stand-in for serde: the two traits mark types that can be kept whole and handed back.

pub use serde_derive::{Deserialize, Serialize};

/// A value that `postcard` can keep a copy of.
pub trait Serialize: Clone + 'static {}

/// A value that `postcard` can hand back.
pub trait Deserialize: Clone + 'static {}

pub mod de {
    //! The bound that readers name.

    /// Every kept value is owned.
    pub trait DeserializeOwned: super::Deserialize {}

    impl<T: super::Deserialize> DeserializeOwned for T {}
}
