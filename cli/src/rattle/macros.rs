//! Macros that take an allocator.

/// `format!(in alloc; ..)`: a text on an allocator.
macro_rules! format {
    (in $alloc:expr; $($rest:tt)*) => {
        $crate::rattle::string::formatted($alloc, ::std::format_args!($($rest)*))
    };
}

/// `vec![in alloc; item; count]`: so many of an item on an allocator.
macro_rules! vec {
    (in $alloc:expr; $item:expr; $count:expr) => {
        $crate::rattle::vec::repeated($alloc, $item, $count)
    };
}
