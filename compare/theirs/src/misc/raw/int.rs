// STAND-IN for misc/raw/int.rs: written from docs/RULES.md and from what the given files use. Reading and writing go
// through the given io.rs.

use crate::{
    io::{BufMutExt, ParseBuf},
    misc::unexpected_buf_eof,
    proto::{MyDeserialize, MySerialize},
};
use bytes::BufMut;
use std::{fmt::Debug, hash::Hash, io, marker::PhantomData, ops::Deref};

/// How a number stands on the wire.
pub trait IntRepr: Debug + Clone + Copy + PartialEq + Eq + Hash {
    /// Its number of bytes, if that is constant.
    const SIZE: Option<usize>;
    type Primitive: Debug + Default + Clone + Copy + PartialEq + Eq + Hash;

    /// Reads it; panics where SIZE is constant and the bytes are short.
    fn take(buf: &mut ParseBuf<'_>) -> io::Result<Self::Primitive>;
    fn put(value: Self::Primitive, buf: &mut Vec<u8>);
}

macro_rules! plain_number {
    ($name:ty, $size:literal, $primitive:ty, $take:ident, $put:ident) => {
        impl IntRepr for $name {
            const SIZE: Option<usize> = Some($size);
            type Primitive = $primitive;

            fn take(buf: &mut ParseBuf<'_>) -> io::Result<$primitive> {
                Ok(buf.$take())
            }

            fn put(value: $primitive, buf: &mut Vec<u8>) {
                buf.$put(value);
            }
        }
    };
}

#[derive(Debug, Clone, Copy, PartialEq, Eq, Hash)]
pub struct LeU32;
#[derive(Debug, Clone, Copy, PartialEq, Eq, Hash)]
pub struct LeU56;
#[derive(Debug, Clone, Copy, PartialEq, Eq, Hash)]
pub struct LeU64;
/// The length-encoded integer, by io.rs's checked reader: FB and FF read as 0 there (D2 of docs/DIFFERENCES.md).
#[derive(Debug, Clone, Copy, PartialEq, Eq, Hash)]
pub struct LenEnc;

plain_number!(u8, 1, u8, eat_u8, put_u8);
plain_number!(LeU32, 4, u32, eat_u32_le, put_u32_le);
plain_number!(LeU56, 7, u64, eat_u56_le, put_u56_le);
plain_number!(LeU64, 8, u64, eat_u64_le, put_u64_le);

impl IntRepr for LenEnc {
    const SIZE: Option<usize> = None;
    type Primitive = u64;

    fn take(buf: &mut ParseBuf<'_>) -> io::Result<u64> {
        buf.checked_eat_lenenc_int().ok_or_else(unexpected_buf_eof)
    }

    fn put(value: u64, buf: &mut Vec<u8>) {
        buf.put_lenenc_int(value);
    }
}

#[derive(Debug, Clone, Copy, PartialEq, Eq, Hash)]
pub struct RawInt<T: IntRepr>(pub T::Primitive);

impl<T: IntRepr> RawInt<T> {
    pub fn new(value: T::Primitive) -> Self {
        Self(value)
    }
}

impl<T: IntRepr> Default for RawInt<T> {
    fn default() -> Self {
        Self(Default::default())
    }
}

impl<T: IntRepr> Deref for RawInt<T> {
    type Target = T::Primitive;

    fn deref(&self) -> &T::Primitive {
        &self.0
    }
}

impl<'de, T: IntRepr> MyDeserialize<'de> for RawInt<T> {
    const SIZE: Option<usize> = T::SIZE;
    type Ctx = ();

    fn deserialize((): (), buf: &mut ParseBuf<'de>) -> io::Result<Self> {
        Ok(Self(T::take(buf)?))
    }
}

impl<T: IntRepr> MySerialize for RawInt<T> {
    fn serialize(&self, buf: &mut Vec<u8>) {
        T::put(self.0, buf);
    }
}

/// One byte that must be `N`; `E` is told where it is another.
#[derive(Debug, Clone, Copy, PartialEq, Eq, Hash, Default)]
pub struct ConstU8<E, const N: u8>(PhantomData<E>);

impl<E, const N: u8> ConstU8<E, N> {
    pub fn value(&self) -> u8 {
        N
    }
}

impl<'de, E, const N: u8> MyDeserialize<'de> for ConstU8<E, N>
where
    E: Default + std::error::Error + Send + Sync + 'static,
{
    const SIZE: Option<usize> = Some(1);
    type Ctx = ();

    fn deserialize((): (), buf: &mut ParseBuf<'de>) -> io::Result<Self> {
        if buf.eat_u8() == N {
            Ok(Self(PhantomData))
        } else {
            Err(io::Error::new(io::ErrorKind::InvalidData, E::default()))
        }
    }
}

impl<E, const N: u8> MySerialize for ConstU8<E, N> {
    fn serialize(&self, buf: &mut Vec<u8>) {
        buf.put_u8(N);
    }
}
