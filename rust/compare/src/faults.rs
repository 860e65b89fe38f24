//! Faults of a decoder that is made to be found out: an enum of them, and a list of all.

macro_rules! faults {
    ($($name:ident),* $(,)?) => {
        /// What is wrong.
        #[derive(Clone, Copy, Debug, PartialEq, Eq)]
        pub enum Fault { None, $($name),* }

        impl Fault {
            pub const ALL: &'static [Fault] = &[$(Fault::$name),*];
        }
    };
}

pub(crate) use faults;
