//! Why an input is turned down: a fault's number, its words, and the place.

use std::fmt;

/// Declares the faults: name, number, words, and what the place is where it is not always the same.
macro_rules! faults {
    ($($name:ident = $number:literal, $words:literal, $place:expr;)*) => {
        /// The faults that an input is turned down for, each with its number. include/mahunopi.h says by which of them
        /// each call is checked, and in which order; names, numbers and words come from there.
        #[derive(Clone, Copy, Debug, PartialEq, Eq, PartialOrd, Ord, Hash)]
        #[non_exhaustive]
        pub enum Fault {
            $(#[doc = $words] $name = $number,)*
        }

        impl Fault {
            /// All of them, by rising number.
            pub const ALL: &'static [Fault] = &[$(Fault::$name),*];

            /// What is wrong, in one line.
            pub fn words(self) -> &'static str {
                match self {
                    $(Fault::$name => $words,)*
                }
            }

            /// What the place of such a refusal is, as `vertex`; none where it is always the same number.
            pub fn place(self) -> Option<&'static str> {
                match self {
                    $(Fault::$name => $place,)*
                }
            }
        }
    };
}

include!(concat!(env!("OUT_DIR"), "/faults.rs"));

impl Fault {
    /// The number that the library answers.
    pub fn number(self) -> u32 {
        self as u32
    }

    /// The fault of a number, where there is one.
    ///
    /// ```
    /// use mahunopi::Fault;
    ///
    /// assert_eq!(Fault::of_number(12), Some(Fault::BadCornersOfVertex));
    /// assert_eq!(Fault::of_number(0), None);
    /// ```
    pub fn of_number(number: u32) -> Option<Fault> {
        Fault::ALL.iter().copied().find(|fault| fault.number() == number)
    }
}

/// A refusal: what is wrong, and the lowest place where it is.
///
/// ```
/// use mahunopi::{link, Fault, MeshRef};
///
/// // two triangles back to back
/// let refusal = link(MeshRef::new(&[0; 9], &[3, 3], &[0, 1, 2, 0, 2, 1])).unwrap_err();
/// assert_eq!((refusal.fault, refusal.place), (Fault::BadCornersOfVertex, 0));
/// assert_eq!(
///     refusal.to_string(),
///     "refused 12 at vertex 0: a vertex is named by fewer than 3 or more than 16 corners"
/// );
/// ```
#[derive(Clone, Copy, Debug, PartialEq, Eq)]
#[non_exhaustive]
pub struct Refusal {
    /// What is wrong.
    pub fault: Fault,
    /// The lowest place where it applies.
    pub place: u64,
}

impl Refusal {
    /// A refusal, to compare others with.
    pub fn new(fault: Fault, place: u64) -> Refusal {
        Refusal { fault, place }
    }

    /// The fault's number.
    pub fn number(self) -> u32 {
        self.fault.number()
    }
}

impl fmt::Display for Refusal {
    fn fmt(&self, out: &mut fmt::Formatter<'_>) -> fmt::Result {
        write!(out, "refused {}", self.number())?;
        if let Some(name) = self.fault.place() {
            write!(out, " at {name} {}", self.place)?;
        }
        write!(out, ": {}", self.fault.words())
    }
}

impl std::error::Error for Refusal {}

/// The library's answer as a result.
pub(crate) fn answer(number: u32, place: u64) -> Result<(), Refusal> {
    if number == 0 {
        return Ok(());
    }
    // the library's contract allows no other number
    let fault = Fault::of_number(number).expect("libmahunopi.a is of another version than this wrapper");
    Err(Refusal { fault, place })
}
