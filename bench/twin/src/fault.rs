use std::fmt;

/// Why a line is refused.
#[derive(Clone, Copy, Debug)]
pub enum Fault {
    NotJson,
    NotObject,
    NoId,
    BadId,
    NoModified,
    BadModified,
    WrongType(Field),
    BadRangeType,
    GitWithoutRepo,
    NoEvents,
    BadEvent,
    NoIntroduced,
    BadPackage,
    TooLarge,
}

/// What is not of its type.
#[derive(Clone, Copy, Debug)]
pub enum Field {
    Withdrawn,
    Affected,
    Entry,
    Ranges,
    Range,
    Repo,
    Events,
    Versions,
    Version,
}

impl Fault {
    fn code(self) -> u8 {
        match self {
            Fault::NotJson => 1,
            Fault::NotObject => 2,
            Fault::NoId => 3,
            Fault::BadId => 4,
            Fault::NoModified => 5,
            Fault::BadModified => 6,
            Fault::WrongType(_) => 7,
            Fault::BadRangeType => 8,
            Fault::GitWithoutRepo => 9,
            Fault::NoEvents => 10,
            Fault::BadEvent => 11,
            Fault::NoIntroduced => 12,
            Fault::BadPackage => 13,
            Fault::TooLarge => 14,
        }
    }
}

/// The code and the name, which is the variant's.
impl fmt::Display for Fault {
    fn fmt(&self, f: &mut fmt::Formatter) -> fmt::Result {
        match self {
            Fault::WrongType(field) => write!(f, "{} WrongType({:?})", self.code(), field),
            fault => write!(f, "{} {:?}", self.code(), fault),
        }
    }
}
