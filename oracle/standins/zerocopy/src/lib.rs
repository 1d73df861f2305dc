//! Stands in for zerocopy: the few items that the original names, for types that are plain words.

pub use zerocopy_derive::{FromBytes, Immutable, IntoBytes, KnownLayout};

/// Why bytes were not taken as a slice of the type.
#[derive(Debug)]
pub struct CastError;

/// # Safety
/// All-zero bytes are a value of the type.
pub unsafe trait FromZeros {
    fn new_zeroed() -> Self
    where
        Self: Sized,
    {
        // Safety: the trait says so.
        unsafe { std::mem::zeroed() }
    }
}

/// # Safety
/// Any bytes are a value of the type.
pub unsafe trait FromBytes: FromZeros {
    fn ref_from_bytes(bytes: &[u8]) -> Result<&Self, CastError>
    where
        Self: Slice,
    {
        Self::of_bytes(bytes)
    }
}

/// # Safety
/// The type has no padding.
pub unsafe trait IntoBytes {
    fn as_bytes(&self) -> &[u8] {
        // Safety: the value has no padding, so all of its bytes are set.
        unsafe { std::slice::from_raw_parts(self as *const Self as *const u8, std::mem::size_of_val(self)) }
    }
}

/// # Safety
/// As FromBytes, for a slice whose items may start anywhere.
pub unsafe trait Slice {
    fn of_bytes(bytes: &[u8]) -> Result<&Self, CastError>;
}

/// A value at any address.
#[repr(C, packed)]
pub struct Unalign<T: Copy>(T);

// Not derived: a derive would borrow the packed field.
impl<T: Copy> Clone for Unalign<T> {
    fn clone(&self) -> Self {
        *self
    }
}
impl<T: Copy> Copy for Unalign<T> {}

impl<T: Copy> Unalign<T> {
    pub fn into_inner(self) -> T {
        self.0
    }
}

unsafe impl<T: FromBytes + Copy> FromZeros for [Unalign<T>] {}
unsafe impl<T: FromBytes + Copy> FromBytes for [Unalign<T>] {}
unsafe impl<T: FromBytes + Copy> Slice for [Unalign<T>] {
    fn of_bytes(bytes: &[u8]) -> Result<&Self, CastError> {
        let n = std::mem::size_of::<T>();
        if n == 0 || bytes.len() % n != 0 {
            return Err(CastError);
        }
        // Safety: Unalign has alignment 1, the length is whole, and any bytes are a value.
        Ok(unsafe { std::slice::from_raw_parts(bytes.as_ptr() as *const Unalign<T>, bytes.len() / n) })
    }
}
