//! The types whose bytes a sound index rests on.

mod sealed {
    pub trait Sealed {}
    impl Sealed for Vec<u8> {}
    impl Sealed for Box<[u8]> {}
    impl Sealed for &[u8] {}
    impl Sealed for &mut [u8] {}
}

/// Bytes that are the same at each call of `as_ref`, but for what was written through `as_mut`: `Vec<u8>`, `Box<[u8]>`, `&[u8]` and
/// `&mut [u8]`.
///
/// A [`SoundIndex`](crate::SoundIndex) is checked once and rests on that, which a type of one's own could break. So the trait is sealed:
///
/// ```compile_fail
/// struct Own(Vec<u8>);
/// impl AsRef<[u8]> for Own {
///     fn as_ref(&self) -> &[u8] {
///         &self.0
///     }
/// }
/// impl epoch_index::StableBytes for Own {}
/// ```
pub trait StableBytes: sealed::Sealed + AsRef<[u8]> {}

impl StableBytes for Vec<u8> {}
impl StableBytes for Box<[u8]> {}
impl StableBytes for &[u8] {}
impl StableBytes for &mut [u8] {}

/// Those of them that can be changed: `Vec<u8>`, `Box<[u8]>` and `&mut [u8]`.
pub trait StableBytesMut: StableBytes + AsMut<[u8]> {}

impl StableBytesMut for Vec<u8> {}
impl StableBytesMut for Box<[u8]> {}
impl StableBytesMut for &mut [u8] {}
