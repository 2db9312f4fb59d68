//! Stands in for serde: the trait names that crystalorb mentions, held by every type.
//! Nothing is serialized in the comparison.

pub use serde_derive::{Deserialize, Serialize};

pub trait Serialize {}
impl<T: ?Sized> Serialize for T {}

pub trait Deserialize<'de> {}
impl<'de, T> Deserialize<'de> for T {}

pub mod de {
    pub trait DeserializeOwned {}
    impl<T> DeserializeOwned for T {}
}
