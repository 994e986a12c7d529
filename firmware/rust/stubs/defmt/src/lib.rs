//! As much of `defmt` 1 as `ee-store` uses, by its documentation: what is written is kept as text, and a field of a text
//! must have an argument of the type that it names.
#![forbid(unsafe_code)]

use std::cell::RefCell;

/// Where a value is written.
#[derive(Clone, Copy)]
pub struct Formatter<'a>(&'a RefCell<String>);

/// What can stand in a log.
pub trait Format {
    /// Writes the value.
    fn format(&self, fmt: Formatter<'_>);

    /// The type that a field `{=type}` names for it. Of this stub alone.
    fn named(&self) -> &'static str {
        ""
    }
}

impl<T: Format + ?Sized> Format for &T {
    fn format(&self, fmt: Formatter<'_>) {
        (**self).format(fmt);
    }

    fn named(&self) -> &'static str {
        (**self).named()
    }
}

/// A value that is written as its `Debug` says.
pub struct Debug2Format<'a, T: ?Sized>(pub &'a T);

impl<T: std::fmt::Debug + ?Sized> Format for Debug2Format<'_, T> {
    fn format(&self, fmt: Formatter<'_>) {
        *fmt.0.borrow_mut() += &format!("{:?}", self.0);
    }
}

macro_rules! numbers {
    ($($number:ident)*) => {$(
        impl Format for $number {
            fn format(&self, fmt: Formatter<'_>) {
                *fmt.0.borrow_mut() += &self.to_string();
            }

            fn named(&self) -> &'static str {
                stringify!($number)
            }
        }
    )*};
}
numbers!(u16 u32 usize);

impl Format for str {
    fn format(&self, fmt: Formatter<'_>) {
        *fmt.0.borrow_mut() += self;
    }

    fn named(&self) -> &'static str {
        "str"
    }
}

/// Writes a text with its fields.
#[macro_export]
macro_rules! write {
    ($fmt:expr, $text:literal $(, $value:expr)* $(,)?) => {
        $crate::put($fmt, $text, &[$(&$value as &dyn $crate::Format),*])
    };
}

/// Logs a text with its fields.
#[macro_export]
macro_rules! info {
    ($($said:tt)*) => { $crate::log(|fmt| $crate::write!(fmt, $($said)*)) };
}

/// Logs a text with its fields.
#[macro_export]
macro_rules! error {
    ($($said:tt)*) => { $crate::log(|fmt| $crate::write!(fmt, $($said)*)) };
}

/// Writes a text, each field of it by the value that is its turn. Of this stub alone.
pub fn put(fmt: Formatter<'_>, text: &str, values: &[&dyn Format]) {
    let mut values = values.iter();
    let mut rest = text;
    while let Some((before, behind)) = rest.split_once('{') {
        let (field, after) = behind.split_once('}').expect("a field ends");
        let value = *values.next().expect("a field has a value");
        if let Some(named) = field.strip_prefix('=') {
            assert_eq!(named, value.named(), "the type of a field of {text:?}");
        }
        *fmt.0.borrow_mut() += before;
        value.format(fmt);
        rest = after;
    }
    *fmt.0.borrow_mut() += rest;
    assert!(values.next().is_none(), "a value has a field in {text:?}");
}

/// What is written of a value. Of this stub alone.
pub fn shown(value: &dyn Format) -> String {
    let text = RefCell::new(String::new());
    value.format(Formatter(&text));
    text.into_inner()
}

/// Logs what is written. Of this stub alone.
pub fn log(write: impl FnOnce(Formatter<'_>)) {
    let text = RefCell::new(String::new());
    write(Formatter(&text));
    println!("{}", text.into_inner());
}
