//! Why a host doesn't do what is asked.
use crate::sys;
use std::fmt;

/// Why a host doesn't do what is asked. The numbers are those that scripts show behind the letter (`docs/guide/script.md`);
/// those of `Fork` are in `docs/guide/library.md`.
#[derive(Clone, Copy, Debug, PartialEq, Eq, Hash)]
#[non_exhaustive]
pub enum Error {
    /// Room was refused, where no family has a number for that.
    Memory,
    /// The tax isn't a fraction below one with a denominator of 1 to 1000.
    Tax,
    /// There is no such instance, no such call of it, or no such module or place of its exports.
    Unknown,
    /// The instance or the module is of another host. This crate says so, and asks nothing of the library.
    OtherHost,
    /// Frames and slots are 2^32 together or more.
    Large,
    /// An instance of the module is there.
    InUse,
    /// The instance's memory has fewer bytes.
    Outside,
    /// D: the bytes aren't a module.
    Decode(u8),
    /// V: the module isn't valid.
    Valid(u8),
    /// L: an import that the host doesn't offer.
    Link(u8),
    /// M: no room for a module.
    Module(u8),
    /// A: the instance isn't admitted. 1 is that the module isn't there.
    Admit(u8),
    /// H: the host doesn't do what is asked of an instance.
    Ask(u8),
    /// F: the instance isn't copied.
    Fork(u8),
    /// Another code.
    Other(u32),
}

impl Error {
    /// The code of the library; for `OtherHost`, which it never says, that of what isn't there.
    pub fn code(self) -> u32 {
        match self {
            Error::Memory => 2,
            Error::Tax => 4,
            Error::Unknown | Error::OtherHost => 6,
            Error::Large => 7,
            Error::InUse => 8,
            Error::Outside => 9,
            Error::Decode(number) => 0x100 + u32::from(number),
            Error::Valid(number) => 0x200 + u32::from(number),
            Error::Link(number) => 0x300 + u32::from(number),
            Error::Module(number) => 0x400 + u32::from(number),
            Error::Admit(number) => 0x500 + u32::from(number),
            Error::Ask(number) => 0x600 + u32::from(number),
            Error::Fork(number) => 0x900 + u32::from(number),
            Error::Other(code) => code,
        }
    }
}

/// What a code says: nothing, or the error.
pub(crate) fn answer(code: u32) -> Result<(), Error> {
    let number = (code & 0xff) as u8;
    Err(match (code >> 8, code) {
        (0, 0) => return Ok(()),
        (0, 2) => Error::Memory,
        (0, 4) => Error::Tax,
        (0, 6) => Error::Unknown,
        (0, 7) => Error::Large,
        (0, 8) => Error::InUse,
        (0, 9) => Error::Outside,
        (1, _) => Error::Decode(number),
        (2, _) => Error::Valid(number),
        (3, _) => Error::Link(number),
        (4, _) => Error::Module(number),
        (5, _) => Error::Admit(number),
        (6, _) => Error::Ask(number),
        (9, _) => Error::Fork(number),
        _ => Error::Other(code),
    })
}

/// The sentence for a code, also that of a trap.
pub fn code_text(code: u32) -> Option<String> {
    let mut room = [0; 128];
    let mut len = 0;
    // SAFETY: the room is as long as it says, and the length can be written.
    let answer = unsafe { sys::wq_code_text(code, room.as_mut_ptr(), room.len(), &mut len) };
    (answer == 0).then(|| String::from_utf8_lossy(&room[..len.min(room.len())]).into_owned())
}

impl fmt::Display for Error {
    fn fmt(&self, f: &mut fmt::Formatter<'_>) -> fmt::Result {
        if *self == Error::OtherHost {
            return write!(f, "the instance or the module is of another host");
        }
        let code = self.code();
        match code_text(code) {
            Some(text) => write!(f, "{text} (code {code:#x})"),
            None => write!(f, "code {code:#x}"),
        }
    }
}

impl std::error::Error for Error {}
