//! Binding the library's functions on records of sessions.

/// Binds functions that answer by number and count, as functions on slices. A block of them has
///
/// - the first arguments, which all its functions share, and how they are handed to C, each with its type there;
/// - the functions: the name, the C function, the slices that it reads, and those that it writes to. C takes a pointer and a
///   length for each, in this order.
macro_rules! bind {
    ($first:tt; $($(#[$about:meta])* $name:ident = $function:ident $read:tt -> $written:tt;)*) => {
        $(bind! { @ $first $(#[$about])* $name = $function $read -> $written })*
    };
    (@ ($($first:ident: $type:ty),*; $($handed:expr => $c_type:ty),*)
        $(#[$about:meta])* $name:ident = $function:ident [$($read:ident),*] -> [$($written:ident),*]
    ) => {
        unsafe extern "C" {
            pub(super) fn $function(
                $(_: $c_type,)*
                $($read: *const u8, _: usize,)*
                $($written: *mut u8, _: usize,)*
            ) -> super::Answer;
        }

        $(#[$about])*
        #[allow(clippy::too_many_arguments)] // Those of the C function.
        pub fn $name($($first: $type,)* $($read: &[u8],)* $($written: &mut [u8],)*) -> super::Answer {
            // SAFETY: see the module's head.
            let answer = unsafe {
                $function(
                    $($handed,)*
                    $($read.as_ptr(), $read.len(),)*
                    $($written.as_mut_ptr(), $written.len(),)*
                )
            };
            super::stack::clear_stack();
            #[cfg(test)]
            super::called::note(stringify!($function));
            answer
        }
    };
}

pub(super) use bind;
