//! The names of marks.

use core::fmt;

use crate::refusal::Refusal;

/// A name of four letters A to Z, checked when it is made.
///
/// ```
/// use silttongs::{Name, Refusal};
///
/// let name = Name::new("JURY")?;
/// assert_eq!(name.as_str(), "JURY");
/// assert_eq!(Name::new(b"JURY"), Ok(name));
/// for bad in ["jury", "JUR", "JURYS", ""] {
///     assert_eq!(Name::new(bad), Err(Refusal::BadName));
/// }
/// # Ok::<(), Refusal>(())
/// ```
#[derive(Clone, Copy, PartialEq, Eq, PartialOrd, Ord, Hash)]
pub struct Name([u8; Name::BYTES]);

impl Name {
    /// The length of a name in bytes.
    pub const BYTES: usize = 4;

    /// The name of these letters.
    ///
    /// # Errors
    ///
    /// [`Refusal::BadName`] if they are not four, or not all A to Z.
    pub fn new(letters: impl AsRef<[u8]>) -> Result<Self, Refusal> {
        let name: [u8; Name::BYTES] = letters.as_ref().try_into().map_err(|_| Refusal::BadName)?;
        if name.iter().all(u8::is_ascii_uppercase) {
            Ok(Name(name))
        } else {
            Err(Refusal::BadName)
        }
    }

    /// Its letters.
    pub fn as_str(&self) -> &str {
        core::str::from_utf8(&self.0).expect("letters A to Z")
    }
}

impl AsRef<[u8]> for Name {
    fn as_ref(&self) -> &[u8] {
        &self.0
    }
}

impl fmt::Display for Name {
    fn fmt(&self, f: &mut fmt::Formatter<'_>) -> fmt::Result {
        f.pad(self.as_str())
    }
}

impl fmt::Debug for Name {
    fn fmt(&self, f: &mut fmt::Formatter<'_>) -> fmt::Result {
        f.debug_tuple("Name").field(&self.as_str()).finish()
    }
}

#[cfg(test)]
mod tests {
    use super::*;

    #[test]
    fn each_byte_in_each_place() {
        for place in 0..Name::BYTES {
            for byte in 0..=u8::MAX {
                let mut letters = *b"AZMN";
                letters[place] = byte;
                let good = (65..=90).contains(&byte);
                assert_eq!(Name::new(letters).is_ok(), good, "{byte} in place {place}");
            }
        }
    }

    #[test]
    fn four_letters_and_no_other_number() {
        for count in 0..10 {
            assert_eq!(Name::new([b'A'; 10].get(..count).unwrap()).is_ok(), count == 4, "{count}");
        }
    }
}
