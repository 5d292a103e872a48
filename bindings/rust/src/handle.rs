//! What all handles have in common.

/// A type that owns what a handle keeps. It is `Send`, and neither `Sync` nor `Clone`. Its methods never leave it
/// empty.
///
/// Where compressor.h has another name for it, that stands behind `as`.
macro_rules! handle {
    ($(#[$doc:meta])* $name:ident, $drop:ident) => {
        $crate::handle::handle! { $(#[$doc])* $name as $name, $drop }
    };
    ($(#[$doc:meta])* $name:ident as $own:ident, $drop:ident) => {
        $(#[$doc])*
        pub struct $name(pub(crate) crate::sys::$own);

        // SAFETY: what a handle keeps belongs to no thread; each handle is used by one call at a time, since each
        // call borrows it to write.
        unsafe impl Send for $name {}

        impl $name {
            /// What a call makes in a fresh handle, and its value. Of a refused call the handle stays empty.
            pub(crate) fn made(
                call: impl FnOnce(&mut crate::sys::$own) -> crate::sys::Answer,
            ) -> Result<($name, u64), crate::Refusal> {
                let mut made = $name(crate::sys::$own::EMPTY);
                let value = crate::refusal::told(call(&mut made.0))?;
                Ok((made, value))
            }
        }

        impl Drop for $name {
            fn drop(&mut self) {
                crate::sys::$drop(&mut self.0);
            }
        }

        impl core::fmt::Debug for $name {
            fn fmt(&self, to: &mut core::fmt::Formatter<'_>) -> core::fmt::Result {
                to.debug_struct(stringify!($name)).finish_non_exhaustive()
            }
        }

        #[cfg(doctest)]
        impl $name {
            #[doc = concat!(
                "```\nuse compressor::{flipped::*, rest::*};\n",
                "fn is<T: Send>() {}\nis::<",
                stringify!($name),
                ">();\n```",
            )]
            #[doc = concat!(
                "```compile_fail,E0277\nuse compressor::{flipped::*, rest::*};\n",
                "fn is<T: Sync>() {}\nis::<",
                stringify!($name),
                ">();\n```",
            )]
            #[doc = concat!(
                "```compile_fail,E0277\nuse compressor::{flipped::*, rest::*};\n",
                "fn is<T: Clone>() {}\nis::<",
                stringify!($name),
                ">();\n```",
            )]
            fn types() {}
        }
    };
}

pub(crate) use handle;
