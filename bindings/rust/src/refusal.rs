//! Why a call refuses.

use std::fmt;

/// The table of refusals: each with its number and its sentence, which `include/rig.h` has word for word (`bindings/refusals`).
macro_rules! refusals {
    ($($(#[$doc:meta])* $name:ident = $number:literal, $sentence:literal;)*) => {
        /// Why a call refused. The numbers are those that the library and the program `skeleton_check` give.
        #[derive(Clone, Copy, Debug, PartialEq, Eq, Hash, PartialOrd, Ord)]
        #[non_exhaustive]
        pub enum Refusal {
            $($(#[$doc])* $name = $number,)*
        }

        impl Refusal {
            /// Every refusal, by rising number.
            pub const ALL: &'static [Refusal] = &[$(Refusal::$name),*];

            /// What is wrong, in a sentence for whoever made the rig.
            pub const fn sentence(self) -> &'static str {
                match self {
                    $(Refusal::$name => $sentence,)*
                }
            }
        }
    };
}

// `./check` takes its sentences from these lines: number and sentence stay in one line.
refusals! {
    /// A lent table is too short. No call of this crate gives it: the tables are lent long enough.
    TableTooShort = 1, "a table lent to the library is too short";
    /// Writing and deriving.
    TooManyBones = 2, "there are more than 65,535 bones";
    /// Writing only.
    TooManyChildren = 3, "the child list of these bones would have more than 65,535 entries: too many bones have a parent";
    /// Writing only.
    BadName = 4, "a bone's name is longer than 255 bytes, holds a zero byte or lies outside the lent name bytes";
    /// The output buffer is too short. No call of this crate gives it: the buffer is as long as what is written may be.
    BufferTooShort = 5, "the buffer to write into is too short";
    /// Writing joints only.
    TooManyLimits = 6, "there are more than 65,535 rotation limits or translation limits";
    /// An address in neither half of the section.
    BadAddress = 10, "a pointer leads to neither the system nor the graphics section";
    /// An address, or what stands there, runs past its half.
    PastTheEnd = 11, "a pointer, or what it leads to, runs past the end of its section: the file is cut short, or the pointer is wrong";
    /// One address read as two kinds.
    OtherKind = 12, "two pointers lead to one place and take it for different things";
    /// A bones pointer from 1 to 15.
    BonesPointer = 13, "the pointer to the bones is from 1 to 15, where no bones can be";
    /// Lookup only.
    ChainTooLong = 14, "the tag's chain has more entries than the stored bone count: it runs in a circle, or the count or a link is wrong";
    /// The check only.
    Chains = 21, "the tag chains differ from those that follow from the bones: the game would not find each bone by its tag";
    /// The check only.
    Parents = 22, "the parent list differs from the parents that the bones store";
    /// The check only.
    Children = 23, "the child list differs from the one that follows from the bones' indices and parents";
    /// The check only.
    Inverse = 24, "the inverse matrices differ from those that follow from the bones' rotations, translations and parents";
    /// The check only.
    Local = 25, "the local matrices differ from those that follow from each bone's rotation, translation and scale";
    /// Writing joints or a rotation limit only.
    BadLimitId = 35, "a rotation limit's bone id is above 65,535, the greatest that its record holds: give the limit an id from 0 to 65,535";
}

impl Refusal {
    /// The refusal's number.
    pub const fn number(self) -> u32 {
        self as u32
    }

    /// The refusal of a number, as in a line `refused 21` of the program.
    ///
    /// ```
    /// use rig::Refusal;
    ///
    /// assert_eq!(Refusal::from_number(21), Some(Refusal::Chains));
    /// assert_eq!(Refusal::from_number(20), None);
    /// ```
    pub fn from_number(number: u32) -> Option<Refusal> {
        Refusal::ALL.iter().copied().find(|r| r.number() == number)
    }
}

/// `refused`, the number, and the sentence.
impl fmt::Display for Refusal {
    fn fmt(&self, f: &mut fmt::Formatter) -> fmt::Result {
        write!(f, "refused {}: {}", self.number(), self.sentence())
    }
}

impl std::error::Error for Refusal {}

/// A status of the library: whether the call did what was asked, or there was nothing (root 0, or nothing found).
///
/// # Panics
///
/// Where the library breaks its contract: by a status that stands for nothing, or by calling tables or a buffer too short that are
/// as long as it may want.
pub(crate) fn done(status: u32) -> Result<bool, Refusal> {
    match (status, Refusal::from_number(status)) {
        (0, _) => Ok(true),
        (100, _) => Ok(false),
        (_, Some(Refusal::TableTooShort | Refusal::BufferTooShort)) => {
            panic!("librig.a broke its contract: status {status}, with all the room that it may want")
        }
        (_, Some(refusal)) => Err(refusal),
        (_, None) => panic!("librig.a broke its contract: status {status} stands for nothing"),
    }
}

/// The status of a call that has nothing to refuse in the room that it is lent.
///
/// # Panics
///
/// Where the library breaks its contract: by any other than 0.
pub(crate) fn not_refused(status: u32) {
    assert!(status == 0, "librig.a broke its contract: status {status}, with nothing to refuse");
}

#[cfg(test)]
mod tests {
    use super::{done, not_refused, Refusal};

    #[test]
    fn numbers_rise() {
        assert!(Refusal::ALL.windows(2).all(|pair| pair[0].number() < pair[1].number()));
    }

    #[test]
    fn statuses() {
        assert_eq!(done(0), Ok(true));
        assert_eq!(done(100), Ok(false));
        assert_eq!(done(21), Err(Refusal::Chains));
        not_refused(0);
    }

    #[test]
    #[should_panic(expected = "broke its contract: status 99")]
    fn unknown_status() {
        let _ = done(99);
    }

    #[test]
    #[should_panic(expected = "broke its contract: status 1,")]
    fn too_short_is_no_answer() {
        let _ = done(1);
    }

    #[test]
    #[should_panic(expected = "broke its contract: status 5, with nothing to refuse")]
    fn a_refusal_of_nothing() {
        not_refused(5);
    }
}
