//! What stands in for the rest of the crate: references without cache calls, records of two layouts, small macros.

use core::ops::{Deref, DerefMut};

/// A lent value. The real one checks its place and calls the cache; here there is none.
#[derive(Debug)]
pub struct DmaAlignedMut<'a, T: ?Sized>(pub(crate) &'a mut T);

impl<T: ?Sized> DmaAlignedMut<'_, T> {
    pub fn invalidate(&self) {}
    pub fn writeback(&mut self) {}
}

impl<T: ?Sized> Deref for DmaAlignedMut<'_, T> {
    type Target = T;
    fn deref(&self) -> &T {
        self.0
    }
}

impl<T: ?Sized> DerefMut for DmaAlignedMut<'_, T> {
    fn deref_mut(&mut self) -> &mut T {
        self.0
    }
}

impl<T> DmaAlignedMut<'static, [T]> {
    /// Lends a slice without a lifetime, as the text asks.
    ///
    /// # Safety
    /// The ring built over it is gone before the slice is touched again.
    pub unsafe fn lend(slice: &mut [T]) -> Self {
        DmaAlignedMut(unsafe { core::slice::from_raw_parts_mut(slice.as_mut_ptr(), slice.len()) })
    }
}

pub struct InternalMemory<T>(T);

impl<T> InternalMemory<T> {
    pub const fn new(init: T) -> Self {
        Self(init)
    }

    pub fn get_mut(&mut self) -> DmaAlignedMut<'_, T> {
        DmaAlignedMut(&mut self.0)
    }
}

/// Flags packed in one word, as the `bitfield` crate makes them.
macro_rules! packed {
    ($(#[$meta:meta])* $vis:vis struct $name:ident($word:ty); $field:ty; $($rest:tt)*) => {
        $(#[$meta])*
        $vis struct $name($word);
        impl $name {
            $crate::shims::packed_fields! { $word; $field; $($rest)* }
        }
    };
}

macro_rules! packed_fields {
    ($word:ty; $field:ty;) => {};
    ($word:ty; $field:ty; $(#[$meta:meta])* $vis:vis $get:ident, $set:ident: $high:expr, $low:expr; $($rest:tt)*) => {
        $vis fn $get(&self) -> $field {
            ((self.0 >> $low) & ((1 << ($high - $low + 1)) - 1)) as $field
        }
        $vis fn $set(&mut self, value: $field) {
            let mask: $word = ((1 << ($high - $low + 1)) - 1) << $low;
            self.0 = (self.0 & !mask) | (((value as $word) << $low) & mask);
        }
        $crate::shims::packed_fields! { $word; $field; $($rest)* }
    };
    ($word:ty; $field:ty; $(#[$meta:meta])* $vis:vis $get:ident, $set:ident: $bit:expr; $($rest:tt)*) => {
        $vis fn $get(&self) -> bool {
            self.0 & (1 << $bit) != 0
        }
        $vis fn $set(&mut self, value: bool) {
            self.0 = (self.0 & !(1 << $bit)) | ((value as $word) << $bit);
        }
        $crate::shims::packed_fields! { $word; $field; $($rest)* }
    };
}

/// The same flags as plain fields. The text makes the empty one as `Name(0)`: a function of that name does it.
macro_rules! plain {
    ($(#[$meta:meta])* $vis:vis struct $name:ident($word:ty); $field:ty;
     $(#[$m1:meta])* $v1:vis $size:ident, $set_size:ident: $h1:expr, $l1:expr;
     $(#[$m2:meta])* $v2:vis $length:ident, $set_length:ident: $h2:expr, $l2:expr;
     $(#[$m3:meta])* $v3:vis $eof:ident, $set_eof:ident: $b3:expr;
     $(#[$m4:meta])* $v4:vis $owner:ident, $set_owner:ident: $b4:expr;) => {
        $(#[$meta])*
        $vis struct $name { $size: $field, $length: $field, $eof: bool, $owner: bool }
        #[allow(non_snake_case)]
        const fn $name(_: $word) -> $name {
            $name { $size: 0, $length: 0, $eof: false, $owner: false }
        }
        impl $name {
            $v1 fn $size(&self) -> $field { self.$size }
            $v1 fn $set_size(&mut self, value: $field) { self.$size = value }
            $v2 fn $length(&self) -> $field { self.$length }
            $v2 fn $set_length(&mut self, value: $field) { self.$length = value }
            $v3 fn $eof(&self) -> bool { self.$eof }
            $v3 fn $set_eof(&mut self, value: bool) { self.$eof = value }
            $v4 fn $owner(&self) -> bool { self.$owner }
            $v4 fn $set_owner(&mut self, value: bool) { self.$owner = value }
        }
    };
}

macro_rules! trm_markdown_link {
    () => {
        ""
    };
}

pub(crate) use {packed, packed_fields, plain, trm_markdown_link};
