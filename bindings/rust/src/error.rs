//! Why a call has no answer.

use crate::sys;
use crate::{JsonReason, ModulesReason, Reason, TextReason};
use std::fmt;

/// Why a call has no answer. Each call says which of these it may return.
#[derive(Clone, Copy, Debug, PartialEq, Eq)]
#[non_exhaustive]
pub enum Error {
    /// The octets don't begin with an encoding of a value of the type.
    Octets {
        /// What is wrong with them.
        reason: Reason,
        /// How many of them had been looked at.
        place: u64,
    },
    /// The text spells no types.
    Definitions {
        /// What is wrong with it.
        reason: TextReason,
        /// The octet of the text at which the token or type begins that shows the fault, or from which on it
        /// is not UTF-8, counted from 0.
        place: u64,
    },
    /// The JSON is no value of the type.
    Json {
        /// What is wrong with it.
        reason: JsonReason,
    },
    /// There are no types: none were read, or they were freed.
    NoTypes,
    /// No definition has the name.
    Unnamed,
    /// An allocation failed, here or in the library.
    Memory,
    /// The buffer is too small. Only the calls whose names end in `_into` return this.
    Room {
        /// How many octets the buffer has to have.
        needed: u64,
    },
    /// The text is not a path, or not names.
    NoPath,
    /// The path has a step that the type doesn't have, one past the last element, or one to an addition
    /// that the type doesn't know and that isn't there; or it goes on from a part that the type doesn't
    /// know; or the same of names.
    NoStep {
        /// How many octets the encoding has.
        read: u64,
    },
    /// The path leads to a component or a known addition that is absent; or names do, or to an alternative
    /// that isn't chosen.
    Absent {
        /// How many octets the encoding has.
        read: u64,
    },
    /// The text is not JSON, or not UTF-8.
    NoJson {
        /// The octet of the text, counted from 0, at which reading stopped, at the fault or soon after it, or
        /// from which on it is not UTF-8; and its length where it ends too soon.
        place: u64,
    },
    /// The message is not all in the octets.
    Outside,
    /// The octets are an encoding, but not the canonical one. Only [`Types::check_whole`](crate::Types::check_whole)
    /// returns this and the next one.
    NotCanonical,
    /// An encoding is at the front of the octets, and others follow it.
    Follows {
        /// How many octets the encoding has: the place of the first one that follows.
        read: u64,
    },
    /// A status or reason that this crate doesn't know. No library of the version that the crate was
    /// made for answers it.
    Unknown {
        /// The status.
        status: u32,
        /// The reason.
        why: u32,
    },
}

impl Error {
    /// The name of the reason, where octets, definitions or JSON are rejected.
    pub fn reason(&self) -> Option<&'static str> {
        match self {
            Error::Octets { reason, .. } => Some(reason.name()),
            Error::Definitions { reason, .. } => Some(reason.name()),
            Error::Json { reason } => Some(reason.name()),
            _ => None,
        }
    }

    /// The place, where octets or definitions are rejected, or a text is not JSON: how many octets had been
    /// looked at, or the octet of the text that the error names.
    pub fn place(&self) -> Option<u64> {
        match self {
            Error::Octets { place, .. } | Error::Definitions { place, .. } | Error::NoJson { place } => Some(*place),
            _ => None,
        }
    }

    /// The error of a status that is neither OK nor REJECTED. `read` is how many octets the encoding has, or of
    /// NO_JSON the place, and `needed` is of ROOM.
    fn of_status(status: u32, why: u32, read: u64, needed: u64) -> Error {
        match status {
            sys::NO_TYPES => Error::NoTypes,
            sys::UNNAMED => Error::Unnamed,
            sys::MEMORY => Error::Memory,
            sys::ROOM => Error::Room { needed },
            sys::NO_PATH => Error::NoPath,
            sys::NO_STEP => Error::NoStep { read },
            sys::ABSENT => Error::Absent { read },
            sys::NO_JSON => Error::NoJson { place: read },
            sys::OUTSIDE => Error::Outside,
            sys::NOT_CANONICAL => Error::NotCanonical,
            sys::FOLLOWS => Error::Follows { read },
            _ => Error::Unknown { status, why },
        }
    }

    /// The error of a call that reads octets.
    pub(crate) fn of_octets(status: u32, why: u32, place: u64, needed: u64) -> Error {
        match Reason::from_number(why) {
            Some(reason) if status == sys::REJECTED => Error::Octets { reason, place },
            _ => Error::of_status(status, why, place, needed),
        }
    }

    /// The error of a call that reads definitions.
    pub(crate) fn of_definitions(status: u32, why: u32, place: u64) -> Error {
        match TextReason::from_number(why) {
            Some(reason) if status == sys::REJECTED => Error::Definitions { reason, place },
            _ => Error::of_status(status, why, 0, 0),
        }
    }

    /// The error of a call that reads JSON.
    pub(crate) fn of_json(status: u32, why: u32, place: u64, needed: u64) -> Error {
        match JsonReason::from_number(why) {
            Some(reason) if status == sys::REJECTED => Error::Json { reason },
            _ => Error::of_status(status, why, place, needed),
        }
    }
}

impl fmt::Display for Error {
    fn fmt(&self, out: &mut fmt::Formatter<'_>) -> fmt::Result {
        match self {
            Error::Octets { reason, place } => write!(out, "octets rejected: {reason}, {place} octets looked at"),
            Error::Definitions { reason, place } => write!(out, "definitions rejected: {reason} at octet {place}"),
            Error::Json { reason } => write!(out, "JSON rejected: {reason}"),
            Error::NoTypes => out.write_str("no types were read"),
            Error::Unnamed => out.write_str("no definition has the name"),
            Error::Memory => out.write_str("an allocation failed"),
            Error::Room { needed } => write!(out, "the buffer is too small: {needed} octets are needed"),
            Error::NoPath => out.write_str("not a path, or not names"),
            Error::NoStep { .. } => out.write_str("there is no such step"),
            Error::Absent { .. } => out.write_str("the part is absent"),
            Error::NoJson { place } => write!(out, "not JSON at octet {place}"),
            Error::Outside => out.write_str("the message is not all in the octets"),
            Error::NotCanonical => out.write_str("not the canonical encoding"),
            Error::Follows { read } => write!(out, "octets follow the encoding, which has {read}"),
            Error::Unknown { status, why } => write!(out, "status {status}, reason {why}"),
        }
    }
}

impl std::error::Error for Error {}

/// Why modules are not read.
#[derive(Clone, Debug, PartialEq, Eq)]
#[non_exhaustive]
pub enum ModulesError {
    /// A text is rejected, or what is understood of the modules is.
    Rejected(RejectedModules),
    /// An allocation failed, here or in the library.
    Memory,
    /// A status or reason that this crate doesn't know. No library of the version that the crate was
    /// made for answers it.
    Unknown {
        /// The status.
        status: u32,
        /// The reason.
        why: u32,
    },
}

/// Where modules are rejected, and why.
#[derive(Clone, Debug, PartialEq, Eq)]
pub struct RejectedModules {
    /// What is wrong.
    pub reason: ModulesReason,
    /// Which of the texts it is, counted from 1; 0 where the fault is in none of them.
    pub text: u64,
    /// The octet of that text at which the fault shows, or from which on it is not UTF-8, counted from 0.
    pub place: u64,
    /// The line of that octet, counted from 1; 0 where the text is not UTF-8, or there is none.
    pub line: u64,
    /// Its column in characters, counted from 1; 0 where there is no line.
    pub column: u64,
    /// The fault in words, on one line: `text 1, line 12, column 5: expected a type, found "}"`.
    pub words: String,
}

impl ModulesError {
    /// The error of an answer that is not OK, with its words.
    pub(crate) fn of(answer: &sys::OerUnderstood, words: String) -> ModulesError {
        match ModulesReason::from_number(answer.why) {
            Some(reason) if answer.status == sys::REJECTED => ModulesError::Rejected(RejectedModules {
                reason,
                text: answer.text,
                place: answer.place,
                line: answer.line,
                column: answer.column,
                words,
            }),
            _ if answer.status == sys::MEMORY => ModulesError::Memory,
            _ => ModulesError::Unknown { status: answer.status, why: answer.why },
        }
    }
}

impl fmt::Display for ModulesError {
    fn fmt(&self, out: &mut fmt::Formatter<'_>) -> fmt::Result {
        match self {
            ModulesError::Rejected(rejected) => write!(out, "modules rejected: {}", rejected.words),
            ModulesError::Memory => out.write_str("an allocation failed"),
            ModulesError::Unknown { status, why } => write!(out, "status {status}, reason {why}"),
        }
    }
}

impl std::error::Error for ModulesError {}

#[cfg(test)]
mod tests {
    use super::*;
    use crate::table;

    /// Each status of the header but OK and REJECTED has the error with its name.
    #[test]
    fn statuses_are_those_of_the_header() {
        for row in &table::rows("number")[2..13] {
            let wanted = row[0].strip_prefix("OER_").unwrap().replace('_', "").to_lowercase();
            let status = row[1].parse().unwrap();
            for (error, place) in [
                (Error::of_octets(status, 3, 5, 7), 5),
                (Error::of_definitions(status, 3, 5), 0),
                (Error::of_json(status, 3, 5, 7), 5),
            ] {
                let found = format!("{error:?}").to_lowercase();
                assert_eq!(found.split(' ').next(), Some(&wanted[..]));
                let place = if status == sys::NO_JSON { Some(place) } else { None };
                assert_eq!((error.reason(), error.place()), (None, place));
            }
        }
        assert_eq!(Error::of_octets(sys::ROOM, 0, 0, 7), Error::Room { needed: 7 });
        for (status, wanted) in [
            (sys::NO_STEP, Error::NoStep { read: 5 }),
            (sys::ABSENT, Error::Absent { read: 5 }),
            (sys::FOLLOWS, Error::Follows { read: 5 }),
        ] {
            assert_eq!(Error::of_octets(status, 0, 5, 0), wanted);
        }
        assert_eq!(Error::of_json(sys::REJECTED, 99, 0, 0), Error::Unknown { status: 1, why: 99 });
        assert_eq!(Error::of_octets(99, 3, 0, 0), Error::Unknown { status: 99, why: 3 });
    }
}
