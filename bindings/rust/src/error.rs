//! The one error that everything here turns into.
use crate::{raw, FileFault, Refusal, TableFault, UnnamedRefusal};
use std::fmt;

/// The number of the layout that this crate was written for. The library tells its own by [`raw::abi`].
pub const ABI: u32 = 1;

/// What can go wrong. `?` takes every error of this crate into it.
///
/// ```
/// use turepawon::{Error, Index, Refusal, Roster, RosterFile, TableData, Tables};
///
/// fn number_of_rows(file: &[u8]) -> Result<usize, Error> {
///     let index = RosterFile::read(file)?.index()?;
///     Ok(index.tables().rows())
/// }
/// assert_eq!(number_of_rows(b"row,value,now,capacity,sequence\r\n4,0,1,,"), Ok(5));
/// assert_eq!(number_of_rows(b"").unwrap_err().refusal(), Some(Refusal::MalformedInput));
///
/// fn empty_board(rows: usize) -> Result<Index, Error> {
///     let tables = Tables::new(&TableData::blank(rows, 1))?;
///     Index::build(tables, &Roster::new(vec![None; rows]))
/// }
/// assert!(empty_board(128).is_ok());
/// assert_eq!(empty_board(129).unwrap_err().number(), Some(1));
/// ```
#[derive(Clone, Copy, Debug, PartialEq, Eq, Hash)]
#[non_exhaustive]
pub enum Error {
    /// The engine refused what it was handed.
    Refused(Refusal),
    /// It refused by a number that has no name here: the library is newer than this crate.
    Unnamed(UnnamedRefusal),
    /// Table data that do not fit together.
    Tables(TableFault),
    /// A file that is no roster file, or says too much.
    File(FileFault),
    /// The library that is linked has another layout.
    Library(LibraryFault),
}

impl Error {
    /// The engine's refusal for it, where it has one with a name.
    #[must_use]
    pub fn refusal(&self) -> Option<Refusal> {
        match self {
            Error::Refused(refusal) => Some(*refusal),
            Error::Tables(fault) => Some(fault.refusal()),
            Error::File(fault) => Some(fault.refusal()),
            Error::Unnamed(_) | Error::Library(_) => None,
        }
    }

    /// The number of that refusal, named or not.
    #[must_use]
    pub fn number(&self) -> Option<u8> {
        match self {
            Error::Unnamed(unnamed) => Some(unnamed.number()),
            _ => self.refusal().map(Refusal::number),
        }
    }

    fn cause(&self) -> &(dyn std::error::Error + 'static) {
        match self {
            Error::Refused(refusal) => refusal,
            Error::Unnamed(unnamed) => unnamed,
            Error::Tables(fault) => fault,
            Error::File(fault) => fault,
            Error::Library(fault) => fault,
        }
    }
}

impl fmt::Display for Error {
    fn fmt(&self, f: &mut fmt::Formatter<'_>) -> fmt::Result {
        fmt::Display::fmt(self.cause(), f)
    }
}

impl std::error::Error for Error {}

impl From<Refusal> for Error {
    fn from(refusal: Refusal) -> Error {
        Error::Refused(refusal)
    }
}

impl From<UnnamedRefusal> for Error {
    fn from(unnamed: UnnamedRefusal) -> Error {
        Error::Unnamed(unnamed)
    }
}

impl From<TableFault> for Error {
    fn from(fault: TableFault) -> Error {
        Error::Tables(fault)
    }
}

impl From<FileFault> for Error {
    fn from(fault: FileFault) -> Error {
        Error::File(fault)
    }
}

impl From<LibraryFault> for Error {
    fn from(fault: LibraryFault) -> Error {
        Error::Library(fault)
    }
}

/// What an export's code says: 0 is no refusal.
pub(crate) fn taken(code: u8) -> Result<(), Error> {
    match code {
        0 => Ok(()),
        number => Err(Refusal::try_from(number).map_or_else(Error::from, Error::from)),
    }
}

/// A library whose layout is not the one that this crate was written for.
#[derive(Clone, Copy, Debug, PartialEq, Eq, Hash)]
pub struct LibraryFault {
    found: u32,
}

impl LibraryFault {
    /// The number of the library's layout.
    #[must_use]
    pub const fn found(self) -> u32 {
        self.found
    }
}

impl fmt::Display for LibraryFault {
    fn fmt(&self, f: &mut fmt::Formatter<'_>) -> fmt::Result {
        write!(f, "the library has layout {}, and this crate is for layout {ABI}: take both from one version", self.found)
    }
}

impl std::error::Error for LibraryFault {}

/// Whether the library that is linked has the layout that this crate was written for. An index is not built, and nothing else is asked, before that was seen.
///
/// # Errors
/// [`LibraryFault`], where it has another.
pub fn check_library() -> Result<(), LibraryFault> {
    fits(raw::abi())
}

fn fits(found: u32) -> Result<(), LibraryFault> {
    if found == ABI {
        Ok(())
    } else {
        Err(LibraryFault { found })
    }
}

#[cfg(test)]
mod tests {
    use super::*;

    #[test]
    fn a_number_of_tomorrow() {
        for code in (18..=255).chain([12, 14, 15]) {
            let error = taken(code).unwrap_err();
            assert_eq!((error.number(), error.refusal()), (Some(code), None));
            assert_eq!(error.to_string(), format!("refused ({code}): a number that this version has no name for"));
        }
        assert_eq!(taken(0), Ok(()));
        assert_eq!(taken(10), Err(Error::Refused(Refusal::BadCursor)));
    }

    #[test]
    fn a_library_of_another_layout() {
        assert_eq!(fits(ABI), Ok(()));
        let error = Error::from(fits(7).unwrap_err());
        assert_eq!((error.number(), error.refusal()), (None, None));
        assert_eq!(error.to_string(), "the library has layout 7, and this crate is for layout 1: take both from one version");
    }
}
