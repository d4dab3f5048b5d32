// STAND-IN for misc/raw: written from docs/RULES.md ("plain integers") and from what the given files use.

pub mod int;

use self::int::IntRepr;
use crate::{
    io::ParseBuf,
    misc::unexpected_buf_eof,
    proto::{MyDeserialize, MySerialize},
};
use std::{io, marker::PhantomData};

/// A number as it stands on the wire, which may be one of the constants `U`.
#[derive(Debug, Clone, Copy, PartialEq, Eq, Hash)]
pub struct RawConst<T: IntRepr, U>(pub T::Primitive, PhantomData<U>);

impl<T: IntRepr, U> RawConst<T, U> {
    pub fn new(value: T::Primitive) -> Self {
        Self(value, PhantomData)
    }
}

impl<'de, T: IntRepr, U> MyDeserialize<'de> for RawConst<T, U> {
    const SIZE: Option<usize> = T::SIZE;
    type Ctx = ();

    fn deserialize((): (), buf: &mut ParseBuf<'de>) -> io::Result<Self> {
        Ok(Self::new(T::take(buf)?))
    }
}

impl<T: IntRepr, U> MySerialize for RawConst<T, U> {
    fn serialize(&self, buf: &mut Vec<u8>) {
        T::put(self.0, buf);
    }
}

/// Flags as they stand on the wire; `T` is the type of the known ones.
#[derive(Debug, Clone, Copy, PartialEq, Eq, Hash)]
pub struct RawFlags<T, U: IntRepr>(pub U::Primitive, PhantomData<T>);

impl<T, U: IntRepr> RawFlags<T, U> {
    pub fn new(value: U::Primitive) -> Self {
        Self(value, PhantomData)
    }

    pub fn get(&self) -> T
    where
        T: From<U::Primitive>,
    {
        T::from(self.0)
    }
}

impl<T, U: IntRepr> Default for RawFlags<T, U> {
    fn default() -> Self {
        Self::new(Default::default())
    }
}

impl<'de, T, U: IntRepr> MyDeserialize<'de> for RawFlags<T, U> {
    const SIZE: Option<usize> = U::SIZE;
    type Ctx = ();

    fn deserialize((): (), buf: &mut ParseBuf<'de>) -> io::Result<Self> {
        Ok(Self::new(U::take(buf)?))
    }
}

impl<T, U: IntRepr> MySerialize for RawFlags<T, U> {
    fn serialize(&self, buf: &mut Vec<u8>) {
        U::put(self.0, buf);
    }
}

/// A part of the buffer, of the asked length.
impl<'de> MyDeserialize<'de> for ParseBuf<'de> {
    const SIZE: Option<usize> = None;
    type Ctx = usize;

    fn deserialize(len: usize, buf: &mut ParseBuf<'de>) -> io::Result<Self> {
        buf.checked_eat_buf(len).ok_or_else(unexpected_buf_eof)
    }
}

impl<'de, const LEN: usize> MyDeserialize<'de> for [u8; LEN] {
    const SIZE: Option<usize> = Some(LEN);
    type Ctx = ();

    fn deserialize((): (), buf: &mut ParseBuf<'de>) -> io::Result<Self> {
        let mut bytes = [0; LEN];
        bytes.copy_from_slice(buf.eat(LEN));
        Ok(bytes)
    }
}

impl<const LEN: usize> MySerialize for [u8; LEN] {
    fn serialize(&self, buf: &mut Vec<u8>) {
        buf.extend_from_slice(self);
    }
}
