//! The names that the two files import for colours and settings. The recorder and the layout calls run none of it, so that each body here is `unreachable!()`.

pub mod itertools {
    pub trait Itertools: Iterator + Sized {
        fn collect_vec(self) -> Vec<Self::Item> {
            self.collect()
        }
    }
    impl<I: Iterator> Itertools for I {}
}

pub mod regex {
    pub struct Regex;
    #[derive(Debug)]
    pub struct Error;
    pub struct Captures;
    impl Regex {
        pub fn new(_: &str) -> Result<Self, Error> {
            unreachable!()
        }
        pub fn captures(&self, _: &str) -> Option<Captures> {
            unreachable!()
        }
    }
    impl std::ops::Index<&str> for Captures {
        type Output = str;
        fn index(&self, _: &str) -> &str {
            unreachable!()
        }
    }
}

pub mod crossterm {
    macro_rules! queue {
        ($out:expr, $command:expr) => {{
            let _ = (&mut $out, $command);
            std::io::Result::<()>::Ok(unreachable!())
        }};
    }
    pub(crate) use queue;

    pub mod style {
        pub enum Attribute {
            Reset,
            Bold,
            Dim,
            Italic,
            NoItalic,
            Underlined,
            NoUnderline,
            CrossedOut,
            NotCrossedOut,
            Reverse,
            NoReverse,
        }
        #[derive(Clone, Copy, Debug, PartialEq, Eq)]
        pub enum Color {
            Reset,
            Black,
            DarkGrey,
            Red,
            DarkRed,
            Green,
            DarkGreen,
            Yellow,
            DarkYellow,
            Blue,
            DarkBlue,
            Magenta,
            DarkMagenta,
            Cyan,
            DarkCyan,
            White,
            Grey,
            Rgb { r: u8, g: u8, b: u8 },
            AnsiValue(u8),
        }
        pub struct SetAttribute(pub Attribute);
        pub struct SetForegroundColor(pub Color);
        pub struct SetBackgroundColor(pub Color);
    }
}

pub mod serde {
    pub use serde_derive_stub::Deserialize;

    pub use self::de::Deserializer;

    pub mod de {
        pub trait Error: Sized {
            fn custom<T: std::fmt::Display>(message: T) -> Self;
        }
        pub trait Deserializer<'de>: Sized {
            type Error: Error;
        }
        pub trait Deserialize<'de>: Sized {
            fn deserialize<D: Deserializer<'de>>(deserializer: D) -> Result<Self, D::Error>;
        }
        pub trait IntoDeserializer<'de> {
            type Deserializer: Deserializer<'de>;
            fn into_deserializer(self) -> Self::Deserializer;
        }
        impl<'de> Deserialize<'de> for String {
            fn deserialize<D: Deserializer<'de>>(_: D) -> Result<Self, D::Error> {
                unreachable!()
            }
        }
    }
}

pub mod toml_edit {
    pub struct Value;
    pub struct ValueDeserializer;
    impl Value {
        pub fn is_str(&self) -> bool {
            unreachable!()
        }
        pub fn is_inline_table(&self) -> bool {
            unreachable!()
        }
        pub fn type_name(&self) -> &'static str {
            unreachable!()
        }
    }
    impl<'de> super::serde::Deserializer<'de> for ValueDeserializer {
        type Error = de::Error;
    }
    impl<'de> super::serde::de::IntoDeserializer<'de> for Value {
        type Deserializer = ValueDeserializer;
        fn into_deserializer(self) -> ValueDeserializer {
            unreachable!()
        }
    }

    pub mod de {
        pub struct Error;
        impl super::super::serde::de::Error for Error {
            fn custom<T: std::fmt::Display>(_: T) -> Self {
                unreachable!()
            }
        }
    }
}

pub mod jj_lib {
    pub mod config {
        use super::super::toml_edit;

        pub struct StackedConfig;
        #[derive(Debug)]
        pub struct ConfigGetError;
        impl StackedConfig {
            pub fn table_keys(&self, _: &str) -> impl Iterator<Item = &str> {
                std::iter::empty()
            }
            pub fn get_value_with<T>(
                &self,
                _: [&str; 2],
                _: impl FnOnce(toml_edit::Value) -> Result<T, toml_edit::de::Error>,
            ) -> Result<T, ConfigGetError> {
                unreachable!()
            }
        }
    }
}
