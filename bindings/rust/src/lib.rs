//! Encodings of ASN.1 values by the octet encoding rules (ITU-T X.696), over the proved library
//! `liboer`.
//!
//! [`Types`] holds the types of definitions, or of published modules, that were read. By the types in it octets
//! are checked, rewritten as canonical octets, taken apart, shown as JSON, and made from JSON.
//!
//! ```
//! # fn main() -> Result<(), oer::Error> {
//! let types = oer::Types::parse("Flags ::= SEQUENCE OF BOOLEAN")?;
//! let found = types.check("Flags", &[0x02, 0x00, 0x02, 0x01, 0x07])?;
//! assert_eq!(found, oer::Checked { octets: 5, canonical: false });
//! let canonical = types.canon("Flags", &[0x02, 0x00, 0x02, 0x01, 0x07])?;
//! assert_eq!(canonical.octets, [0x01, 0x02, 0xff, 0xff]);
//! # Ok(())
//! # }
//! ```
//!
//! Names, paths, definitions and JSON are UTF-8, and are taken as `&str` or as octets. Lengths and
//! places are numbers of octets. The notation of definitions is in NOTATION.md, that of paths in
//! COMMAND.md, and the JSON in JSON.md.
//!
//! # The library
//!
//! The crate is linked with `liboer.a`. It is looked for in the folder whose whole path `OER_LIB_DIR`
//! of the environment is, or else in the one that `pkg-config` says.
//!
//! # Threads
//!
//! A [`Types`] is `Send` and not `Sync`: the library wants one call at a time on a handle, from any
//! thread. The calls take `&self`: without `Sync` there is no second call at the same time, and none is
//! made from within a call. For calls at the same time each thread has a [`Types`] of its own, by
//! [`Types::share`]. Answers and errors go to other threads as any values do.
//!
//! No call is made from a signal handler, or in the child of a fork of a process with threads. No type
//! holds that: the program has to.

#![warn(missing_docs)]

mod error;
mod reason;
mod sys;
#[cfg(test)]
#[path = "../tests/table/mod.rs"]
mod table;

pub use error::{Error, ModulesError, RejectedModules};
pub use reason::{JsonReason, ModulesReason, Reason, TextReason};

use std::cell::UnsafeCell;
use std::fmt;
use std::ops::Range;
use std::os::raw::c_char;

/// The greatest limit. No octets are as many, but a length that they begin with may say so, and then they are
/// rejected with [`Reason::Limit`], by the calls that take no limit too.
pub const NO_LIMIT: u64 = u64::MAX;

/// The version of the library: 10,000 times the major number, 100 times the minor number, and the patch.
///
/// ```
/// assert_eq!(oer::version() / 10_000, 0);
/// ```
pub fn version() -> u32 {
    // SAFETY: the call takes nothing.
    unsafe { sys::oer_version() }
}

/// What [`Types::check`] returns.
#[derive(Clone, Copy, Debug, PartialEq, Eq)]
pub struct Checked {
    /// How many octets the encoding has.
    pub octets: usize,
    /// Whether it is the canonical one.
    pub canonical: bool,
}

/// What [`Types::canon`] returns.
#[derive(Clone, Debug, PartialEq, Eq)]
pub struct Canonical {
    /// The canonical octets of the value.
    pub octets: Vec<u8>,
    /// How many octets the encoding has that was read.
    pub read: usize,
}

/// What [`Types::to_json`] returns.
#[derive(Clone, Debug, PartialEq, Eq)]
pub struct Json {
    /// The JSON of the value.
    pub text: String,
    /// How many octets the encoding has that was read.
    pub read: usize,
}

/// What the calls return that write into a buffer of the caller's.
#[derive(Clone, Copy, Debug, PartialEq, Eq)]
pub struct Written {
    /// How many octets the encoding has that was read: [`Types::canon_into`], [`Types::part_into`],
    /// [`Types::to_json_into`]. Else 0.
    pub read: usize,
    /// How many octets were written, from the first of the buffer on. Those after them are as before.
    pub size: usize,
}

/// What [`Types::part`] returns: where a part of an encoding stands in the octets that were given. It is
/// borrowed from them, and nothing is copied.
///
/// ```compile_fail,E0505
/// let types = oer::Types::parse("A ::= SEQUENCE OF BOOLEAN")?;
/// let octets = vec![0x01, 0x01, 0xff];
/// let part = types.part("A", &octets, "i0")?;
/// drop(octets);
/// assert_eq!(part.octets, [0xff]);
/// # Ok::<(), oer::Error>(())
/// ```
#[derive(Clone, Copy, Debug, PartialEq, Eq)]
pub struct Part<'a> {
    /// The octets of the part.
    pub octets: &'a [u8],
    /// How many octets are before them.
    pub at: usize,
    /// How many octets the encoding has that they are in. What follows it begins there.
    pub read: usize,
}

impl Part<'_> {
    /// Where the part stands, as a range of the octets that were given.
    pub fn range(&self) -> Range<usize> {
        self.at..self.at + self.octets.len()
    }
}

/// Definitions that were read, by their names; or none.
///
/// The calls that take a name return [`Error::NoTypes`] if there are no types, and [`Error::Unnamed`]
/// if no definition has the name. Their further errors stand with each. After an error the types and
/// the caller's buffers are as before.
pub struct Types {
    held: UnsafeCell<sys::OerTypes>,
}

// SAFETY: the library takes the calls on a handle from any thread, one at a time. What moves it to another
// thread orders the calls.
unsafe impl Send for Types {}

impl Types {
    /// No types.
    ///
    /// ```
    /// assert_eq!(oer::Types::new().check("A", &[]), Err(oer::Error::NoTypes));
    /// ```
    pub const fn new() -> Types {
        let none = sys::OerTypes { at_: std::ptr::null_mut(), full_: 0 };
        Types { held: UnsafeCell::new(none) }
    }

    /// The types of the definitions, each `Name ::= type`.
    ///
    /// # Errors
    ///
    /// Those of [`Types::read`].
    ///
    /// ```
    /// let rejected = oer::Types::parse("A ::= INTEGER (5..4)").unwrap_err();
    /// assert_eq!(rejected, oer::Error::Definitions { reason: oer::TextReason::BoundOrder, place: 6 });
    /// assert_eq!(rejected.to_string(), "definitions rejected: BoundOrder at octet 6");
    /// ```
    pub fn parse(definitions: impl AsRef<[u8]>) -> Result<Types, Error> {
        let mut types = Types::new();
        types.read(definitions)?;
        Ok(types)
    }

    /// Reads definitions, in place of the types that were there.
    ///
    /// # Errors
    ///
    /// [`Error::Definitions`] if the text spells no types, and [`Error::Memory`]. After an error the
    /// types are those from before.
    pub fn read(&mut self, definitions: impl AsRef<[u8]>) -> Result<(), Error> {
        let text = definitions.as_ref();
        // SAFETY: the handle was made by `new` and is in no other call; the text is `text.len()` octets.
        let parsed = unsafe { sys::oer_types_read(self.held.get(), text.as_ptr().cast(), text.len()) };
        match parsed.status {
            sys::OK => Ok(()),
            status => Err(Error::of_definitions(status, parsed.why, parsed.place)),
        }
    }

    /// The types of the definitions, if they have at most `parts` parts together, and hold no more octets than
    /// these have room for (NOTATION.md, Limits). Use it for definitions from someone else: a short text may spell
    /// many parts, and hold many octets, and they take memory.
    ///
    /// # Errors
    ///
    /// Those of [`Types::read_within`].
    ///
    /// ```
    /// let text = "A ::= NULL B ::= SEQUENCE {a A}";
    /// assert!(oer::Types::parse_within(text, 3).is_ok());
    /// let rejected = oer::Types::parse_within(text, 2).unwrap_err();
    /// assert_eq!(rejected, oer::Error::Definitions { reason: oer::TextReason::Parts, place: 11 });
    /// ```
    pub fn parse_within(definitions: impl AsRef<[u8]>, parts: u64) -> Result<Types, Error> {
        let mut types = Types::new();
        types.read_within(definitions, parts)?;
        Ok(types)
    }

    /// Reads definitions as [`Types::read`] does, if their types have at most `parts` parts together, and hold no
    /// more octets than these have room for.
    ///
    /// # Errors
    ///
    /// Those of [`Types::read`], and [`TextReason::Parts`] at the definition with which they have or hold more.
    pub fn read_within(&mut self, definitions: impl AsRef<[u8]>, parts: u64) -> Result<(), Error> {
        let text = definitions.as_ref();
        // SAFETY: as in `read`.
        let parsed = unsafe { sys::oer_types_read_within(self.held.get(), text.as_ptr().cast(), text.len(), parts) };
        match parsed.status {
            sys::OK => Ok(()),
            status => Err(Error::of_definitions(status, parsed.why, parsed.place)),
        }
    }

    /// The types of published ASN.1 modules (MODULES.md): those of all definitions that are understood, each by
    /// its name. A text has one module or more; they stand in any order. A type that contains itself is written
    /// out so often as `nesting` says; 0 stands for the most that fits, up to 8.
    ///
    /// # Errors
    ///
    /// [`ModulesError::Rejected`] if a text is not UTF-8 or can't be read, or if no definition is understood, and
    /// [`ModulesError::Memory`].
    ///
    /// ```
    /// let text = "M DEFINITIONS ::= BEGIN Hops ::= INTEGER (0..most) most INTEGER ::= 15 END";
    /// let types = oer::Types::from_modules(&[text], 0)?;
    /// assert!(types.check("Hops", &[0x0f]).is_ok());
    /// let rejected = oer::Types::from_modules(&["M DEFINITIONS ::= BEGIN Hops ::= END"], 0).unwrap_err();
    /// assert_eq!(
    ///     rejected.to_string(),
    ///     "modules rejected: text 1, line 1, column 34: expected a type, found \"END\"",
    /// );
    /// # Ok::<(), oer::ModulesError>(())
    /// ```
    pub fn from_modules(texts: &[impl AsRef<[u8]>], nesting: u8) -> Result<Types, ModulesError> {
        let mut all = Vec::new();
        let mut places = Vec::new();
        places.try_reserve_exact(texts.len()).map_err(|_| ModulesError::Memory)?;
        for text in texts {
            let text = text.as_ref();
            all.try_reserve(text.len()).map_err(|_| ModulesError::Memory)?;
            places.push(sys::OerMessage { at: all.len(), length: text.len() });
            all.extend_from_slice(text);
        }
        let types = Types::new();
        let mut words = [0; 256];
        // SAFETY: the handle was made by `new` and is in no other call. The slices are as long as it says, and
        // `words` overlaps nothing.
        let answer = unsafe {
            sys::oer_types_read_modules(
                types.held.get(),
                all.as_ptr().cast(),
                all.len(),
                places.as_ptr(),
                places.len(),
                nesting,
                words.as_mut_ptr().cast::<c_char>(),
                words.len(),
            )
        };
        match answer.status {
            sys::OK => Ok(types),
            _ => {
                let words = String::from_utf8_lossy(&words[..answer.words as usize]).into_owned();
                Err(ModulesError::of(&answer, words))
            }
        }
    }

    /// Why definitions are rejected, in lines, each with its line feed, or nothing where they are accepted: the
    /// line and the column of the place that the error of [`Types::read`] names, that line of the text with a mark
    /// under the place, what is wrong there, and perhaps what may help. The text is read again, by as much memory as
    /// [`Types::read`] takes: of one from someone else ask only where [`Types::read_within`] rejects it, and not with
    /// [`TextReason::Parts`].
    ///
    /// # Errors
    ///
    /// [`Error::Memory`].
    ///
    /// ```
    /// let lines = oer::Types::explain_types("A ::= SEQUENCE {b B}\nB ::= NULL")?;
    /// assert_eq!(lines.lines().nth(3), Some("  no definition before this place has this Name"));
    /// assert_eq!(oer::Types::explain_types("A ::= NULL")?, "");
    /// # Ok::<(), oer::Error>(())
    /// ```
    pub fn explain_types(definitions: impl AsRef<[u8]>) -> Result<String, Error> {
        let text = definitions.as_ref();
        lines(|out| Types::explain_types_into(text, out))
    }

    /// The same, written into the buffer, as UTF-8.
    ///
    /// # Errors
    ///
    /// [`Error::Memory`], and [`Error::Room`] if the buffer is too small.
    pub fn explain_types_into(definitions: impl AsRef<[u8]>, out: &mut [u8]) -> Result<Written, Error> {
        let text = definitions.as_ref();
        // SAFETY: the slices are as long as it says; `out` is borrowed mutably, so that it overlaps nothing.
        let answer = unsafe {
            sys::oer_explain_types(text.as_ptr().cast(), text.len(), out.as_mut_ptr().cast::<c_char>(), out.len())
        };
        written(answer)
    }

    /// Frees the types. After it there are none, and types may be read again.
    ///
    /// ```
    /// let mut types = oer::Types::parse("A ::= NULL")?;
    /// types.clear();
    /// assert_eq!(types.check("A", &[]), Err(oer::Error::NoTypes));
    /// # Ok::<(), oer::Error>(())
    /// ```
    pub fn clear(&mut self) {
        // SAFETY: the handle was made by `new` and is in no other call. After it, it is as new.
        unsafe { sys::oer_types_free(self.held.get()) }
    }

    /// The same types once more. Each of the two is used by itself, so that another thread may call with
    /// the one at the same time. They are in memory once, and are freed when nothing has them.
    ///
    /// # Errors
    ///
    /// [`Error::NoTypes`] if there are none, and [`Error::Memory`].
    ///
    /// ```
    /// let types = oer::Types::parse("A ::= BOOLEAN")?;
    /// let other = types.share()?;
    /// let thread = std::thread::spawn(move || other.check("A", &[0xff]));
    /// assert_eq!(types.check("A", &[0xff]), thread.join().unwrap());
    /// # Ok::<(), oer::Error>(())
    /// ```
    pub fn share(&self) -> Result<Types, Error> {
        let other = Types::new();
        // SAFETY: as in `check`; the other handle is in no call.
        match unsafe { sys::oer_types_share(self.held.get(), other.held.get()) } {
            sys::OK => Ok(other),
            status => Err(Error::of_octets(status, 0, 0, 0)),
        }
    }

    /// Whether the octets begin with an encoding of a value of the type with the name, in any spelling
    /// that the rules allow (Basic-OER): how long it is, and whether it is the canonical one. What
    /// follows it is not looked at. It takes no memory.
    ///
    /// # Errors
    ///
    /// [`Error::Octets`] if they don't.
    ///
    /// ```
    /// let types = oer::Types::parse("A ::= OCTET STRING")?;
    /// let rejected = types.check("A", &[0x03, 0x61]).unwrap_err();
    /// assert_eq!(rejected, oer::Error::Octets { reason: oer::Reason::End, place: 2 });
    /// # Ok::<(), oer::Error>(())
    /// ```
    pub fn check(&self, name: impl AsRef<[u8]>, octets: &[u8]) -> Result<Checked, Error> {
        let name = name.as_ref();
        // SAFETY: the handle was made by `new`. The type is not `Sync` and the library calls nothing of
        // ours, so it is in no other call. The slices are as long as it says.
        let answer = unsafe {
            sys::oer_check(self.held.get(), name.as_ptr().cast(), name.len(), octets.as_ptr(), octets.len())
        };
        checked(&answer)
    }

    /// That the octets are the canonical encoding (Canonical-OER) of a value of the type with the name, and
    /// nothing else: what has to be asked before a signature over them counts. They are canonical by these
    /// types: the content of an addition that the types don't know is taken as it stands (LIBRARY.md). It
    /// takes no memory.
    ///
    /// # Errors
    ///
    /// [`Error::Follows`] if an encoding is at the front and others follow it, [`Error::NotCanonical`] if they
    /// are an encoding and not the canonical one, and [`Error::Octets`] if no encoding is at the front.
    ///
    /// ```
    /// let types = oer::Types::parse("A ::= BOOLEAN")?;
    /// assert_eq!(types.check_whole("A", &[0xff]), Ok(()));
    /// assert_eq!(types.check_whole("A", &[0x01]), Err(oer::Error::NotCanonical));
    /// assert_eq!(types.check_whole("A", &[0xff, 0xff]), Err(oer::Error::Follows { read: 1 }));
    /// # Ok::<(), oer::Error>(())
    /// ```
    pub fn check_whole(&self, name: impl AsRef<[u8]>, octets: &[u8]) -> Result<(), Error> {
        let name = name.as_ref();
        // SAFETY: as in `check`.
        let answer = unsafe {
            sys::oer_check_whole(self.held.get(), name.as_ptr().cast(), name.len(), octets.as_ptr(), octets.len())
        };
        checked(&answer).map(|_| ())
    }

    /// That the octets don't nest deeper than the type with the name is written out by
    /// [`Types::from_modules`]. The other calls reject those that do as [`Reason::UnknownAlternative`], at the
    /// same place: ask then, and by types that are read with a greater nesting they may be an encoding.
    ///
    /// # Errors
    ///
    /// [`Error::Octets`] with [`Reason::Nesting`] if they do, and [`Error::Memory`].
    ///
    /// ```
    /// let text = "M DEFINITIONS AUTOMATIC TAGS ::= BEGIN X ::= CHOICE {a NULL, n X} END";
    /// let types = oer::Types::from_modules(&[text], 1).unwrap();
    /// let deep = oer::Error::Octets { reason: oer::Reason::Nesting, place: 2 };
    /// assert_eq!(types.check_nesting("X", &[0x81, 0x80]), Err(deep));
    /// assert_eq!(types.check_nesting("X", &[0x80]), Ok(()));
    /// ```
    pub fn check_nesting(&self, name: impl AsRef<[u8]>, octets: &[u8]) -> Result<(), Error> {
        let name = name.as_ref();
        // SAFETY: as in `check`.
        let answer = unsafe {
            sys::oer_check_nesting(self.held.get(), name.as_ptr().cast(), name.len(), octets.as_ptr(), octets.len())
        };
        checked(&answer).map(|_| ())
    }

    /// Checks each message as [`Types::check`] does, in one call. A message is a range of the octets, and
    /// ranges may overlap. Returns the answers in the order of the messages. A range that ends before it
    /// starts is not in the octets.
    ///
    /// # Errors
    ///
    /// [`Error::Memory`]. Of a message: [`Error::Octets`], and [`Error::Outside`] if it isn't all in the
    /// octets.
    ///
    /// ```
    /// let types = oer::Types::parse("A ::= BOOLEAN")?;
    /// let answers = types.check_many("A", &[0xff, 0x01], &[0..1, 1..2, 2..3])?;
    /// assert_eq!(answers[1], Ok(oer::Checked { octets: 1, canonical: false }));
    /// assert_eq!(answers[2], Err(oer::Error::Outside));
    /// # Ok::<(), oer::Error>(())
    /// ```
    pub fn check_many(
        &self,
        name: impl AsRef<[u8]>,
        octets: &[u8],
        messages: &[Range<usize>],
    ) -> Result<Vec<Result<Checked, Error>>, Error> {
        let name = name.as_ref();
        let places = each(messages, place)?;
        let none = sys::OerChecked { status: 0, why: 0, octets: 0, canonical: 0 };
        let mut answers = each(messages, |_| none)?;
        // SAFETY: as in `check`; `answers` is borrowed mutably, so that it overlaps nothing.
        let status = unsafe {
            sys::oer_check_many(
                self.held.get(),
                name.as_ptr().cast(),
                name.len(),
                octets.as_ptr(),
                octets.len(),
                places.as_ptr(),
                places.len(),
                answers.as_mut_ptr(),
                answers.len(),
            )
        };
        match status {
            sys::OK => each(&answers, checked),
            status => Err(Error::of_octets(status, 0, 0, 0)),
        }
    }

    /// The canonical octets (Canonical-OER) of the value whose encoding is at the front of the octets.
    /// What follows it is not looked at.
    ///
    /// # Errors
    ///
    /// [`Error::Octets`] if the octets don't begin with an encoding, and [`Error::Memory`].
    pub fn canon(&self, name: impl AsRef<[u8]>, octets: &[u8]) -> Result<Canonical, Error> {
        self.canon_within(name, octets, NO_LIMIT)
    }

    /// The same of an encoding of at most `limit` octets. If it would be longer, the error is
    /// [`Error::Octets`] with [`Reason::Limit`].
    ///
    /// ```
    /// let types = oer::Types::parse("A ::= OCTET STRING")?;
    /// let rejected = types.canon_within("A", &[0x03, 0x61], 2).unwrap_err();
    /// assert_eq!(rejected, oer::Error::Octets { reason: oer::Reason::Limit, place: 1 });
    /// # Ok::<(), oer::Error>(())
    /// ```
    pub fn canon_within(&self, name: impl AsRef<[u8]>, octets: &[u8], limit: u64) -> Result<Canonical, Error> {
        let name = name.as_ref();
        let (octets, read) = gather(octets.len(), |out| self.canon_into(name, octets, limit, out))?;
        Ok(Canonical { octets, read })
    }

    /// The same, written into the buffer.
    ///
    /// # Errors
    ///
    /// Those of [`Types::canon_within`], and [`Error::Room`] if the buffer is too small.
    ///
    /// ```
    /// let types = oer::Types::parse("A ::= BOOLEAN")?;
    /// let mut out = [0; 1];
    /// let written = types.canon_into("A", &[0x01], oer::NO_LIMIT, &mut out)?;
    /// assert_eq!((written, out), (oer::Written { read: 1, size: 1 }, [0xff]));
    /// let rejected = types.canon_into("A", &[0x01], oer::NO_LIMIT, &mut []).unwrap_err();
    /// assert_eq!(rejected, oer::Error::Room { needed: 1 });
    /// # Ok::<(), oer::Error>(())
    /// ```
    pub fn canon_into(
        &self,
        name: impl AsRef<[u8]>,
        octets: &[u8],
        limit: u64,
        out: &mut [u8],
    ) -> Result<Written, Error> {
        let name = name.as_ref();
        // SAFETY: as in `check`; `out` is borrowed mutably, so that it overlaps nothing.
        let answer = unsafe {
            sys::oer_canon(
                self.held.get(),
                name.as_ptr().cast(),
                name.len(),
                octets.as_ptr(),
                octets.len(),
                limit,
                out.as_mut_ptr(),
                out.len(),
            )
        };
        written(answer)
    }

    /// The part of the encoding at the front of the octets to which the path leads, where it stands in
    /// them. A path is steps joined by dots: `c0` a component, `a0` an addition, `i0` an element, `v` the
    /// alternative chosen. What follows the encoding is not looked at.
    ///
    /// # Errors
    ///
    /// [`Error::Octets`] if the octets don't begin with an encoding, [`Error::NoPath`],
    /// [`Error::NoStep`], [`Error::Absent`], and [`Error::Memory`].
    ///
    /// ```
    /// let types = oer::Types::parse("A ::= SEQUENCE OF BOOLEAN")?;
    /// let part = types.part("A", &[0x02, 0x00, 0x02, 0x01, 0x07], "i1")?;
    /// assert_eq!((part.octets, part.range(), part.read), (&[0x07][..], 4..5, 5));
    /// # Ok::<(), oer::Error>(())
    /// ```
    pub fn part<'a>(
        &self,
        name: impl AsRef<[u8]>,
        octets: &'a [u8],
        path: impl AsRef<[u8]>,
    ) -> Result<Part<'a>, Error> {
        let (name, path) = (name.as_ref(), path.as_ref());
        // SAFETY: as in `check`.
        let answer = unsafe {
            sys::oer_part_at(
                self.held.get(),
                name.as_ptr().cast(),
                name.len(),
                octets.as_ptr(),
                octets.len(),
                path.as_ptr().cast(),
                path.len(),
            )
        };
        located(octets, answer)
    }

    /// The same, written into the buffer as a copy.
    ///
    /// # Errors
    ///
    /// Those of [`Types::part`], and [`Error::Room`] if the buffer is too small.
    pub fn part_into(
        &self,
        name: impl AsRef<[u8]>,
        octets: &[u8],
        path: impl AsRef<[u8]>,
        out: &mut [u8],
    ) -> Result<Written, Error> {
        let (name, path) = (name.as_ref(), path.as_ref());
        // SAFETY: as in `canon_into`.
        let answer = unsafe {
            sys::oer_part(
                self.held.get(),
                name.as_ptr().cast(),
                name.len(),
                octets.as_ptr(),
                octets.len(),
                path.as_ptr().cast(),
                path.len(),
                out.as_mut_ptr(),
                out.len(),
            )
        };
        written(answer)
    }

    /// The part to which names lead, in place of a path: those of the parts on the way, joined by dots. A name is
    /// the identifier of a component, an addition or an alternative, or the number of an element, counted from 0.
    /// What the type doesn't know has no name. All else is as in [`Types::part`].
    ///
    /// # Errors
    ///
    /// [`Error::NoPath`] if a name is empty, as the whole text may be, or has another character than letters,
    /// digits and hyphens; [`Error::NoStep`] if the type has no such name, or there is no such element;
    /// [`Error::Absent`] if a component or a known addition is absent, or another alternative is chosen; and the
    /// other errors of [`Types::part`].
    ///
    /// ```
    /// let types = oer::Types::parse("A ::= SEQUENCE {a NULL, list SEQUENCE OF SEQUENCE {b BOOLEAN}}")?;
    /// let part = types.part_named("A", &[0x01, 0x02, 0xff, 0x00], "list.1.b")?;
    /// assert_eq!((part.octets, part.range(), part.read), (&[0x00][..], 3..4, 4));
    /// # Ok::<(), oer::Error>(())
    /// ```
    pub fn part_named<'a>(
        &self,
        name: impl AsRef<[u8]>,
        octets: &'a [u8],
        names: impl AsRef<[u8]>,
    ) -> Result<Part<'a>, Error> {
        let (name, names) = (name.as_ref(), names.as_ref());
        // SAFETY: as in `check`.
        let answer = unsafe {
            sys::oer_part_named_at(
                self.held.get(),
                name.as_ptr().cast(),
                name.len(),
                octets.as_ptr(),
                octets.len(),
                names.as_ptr().cast(),
                names.len(),
            )
        };
        located(octets, answer)
    }

    /// The same, written into the buffer as a copy.
    ///
    /// # Errors
    ///
    /// Those of [`Types::part_named`], and [`Error::Room`] if the buffer is too small.
    pub fn part_named_into(
        &self,
        name: impl AsRef<[u8]>,
        octets: &[u8],
        names: impl AsRef<[u8]>,
        out: &mut [u8],
    ) -> Result<Written, Error> {
        let (name, names) = (name.as_ref(), names.as_ref());
        // SAFETY: as in `canon_into`.
        let answer = unsafe {
            sys::oer_part_named(
                self.held.get(),
                name.as_ptr().cast(),
                name.len(),
                octets.as_ptr(),
                octets.len(),
                names.as_ptr().cast(),
                names.len(),
                out.as_mut_ptr(),
                out.len(),
            )
        };
        written(answer)
    }

    /// The JSON of the value whose encoding is at the front of the octets. What follows it is not
    /// looked at.
    ///
    /// # Errors
    ///
    /// [`Error::Octets`] if the octets don't begin with an encoding, and [`Error::Memory`].
    ///
    /// ```
    /// let types = oer::Types::parse("A ::= SEQUENCE OF BOOLEAN")?;
    /// assert_eq!(types.to_json("A", &[0x01, 0x02, 0xff, 0x00])?.text, "[true,false]");
    /// assert_eq!(types.from_json("A", "[true, false]")?, [0x01, 0x02, 0xff, 0x00]);
    /// # Ok::<(), oer::Error>(())
    /// ```
    pub fn to_json(&self, name: impl AsRef<[u8]>, octets: &[u8]) -> Result<Json, Error> {
        self.to_json_within(name, octets, NO_LIMIT)
    }

    /// The same of an encoding of at most `limit` octets. If it would be longer, the error is
    /// [`Error::Octets`] with [`Reason::Limit`].
    pub fn to_json_within(&self, name: impl AsRef<[u8]>, octets: &[u8], limit: u64) -> Result<Json, Error> {
        let name = name.as_ref();
        let room = octets.len().saturating_mul(4).saturating_add(64).min(isize::MAX as usize);
        let (text, read) = gather(room, |out| self.to_json_into(name, octets, limit, out))?;
        Ok(Json { text: String::from_utf8(text).expect("the library writes JSON as UTF-8"), read })
    }

    /// The same, written into the buffer, as UTF-8.
    ///
    /// # Errors
    ///
    /// Those of [`Types::to_json_within`], and [`Error::Room`] if the buffer is too small.
    pub fn to_json_into(
        &self,
        name: impl AsRef<[u8]>,
        octets: &[u8],
        limit: u64,
        out: &mut [u8],
    ) -> Result<Written, Error> {
        let name = name.as_ref();
        // SAFETY: as in `canon_into`.
        let answer = unsafe {
            sys::oer_to_json(
                self.held.get(),
                name.as_ptr().cast(),
                name.len(),
                octets.as_ptr(),
                octets.len(),
                limit,
                out.as_mut_ptr().cast::<c_char>(),
                out.len(),
            )
        };
        written(answer)
    }

    /// The canonical octets of the value that the JSON stands for.
    ///
    /// # Errors
    ///
    /// [`Error::NoJson`] if the text is not JSON, [`Error::Json`] if the JSON is no value of the type,
    /// and [`Error::Memory`].
    ///
    /// ```
    /// let types = oer::Types::parse("A ::= INTEGER (0..5)")?;
    /// let rejected = types.from_json("A", "6").unwrap_err();
    /// assert_eq!(rejected, oer::Error::Json { reason: oer::JsonReason::Misfit });
    /// assert_eq!(types.from_json("A", "[1, x]"), Err(oer::Error::NoJson { place: 4 }));
    /// # Ok::<(), oer::Error>(())
    /// ```
    pub fn from_json(&self, name: impl AsRef<[u8]>, json: impl AsRef<[u8]>) -> Result<Vec<u8>, Error> {
        let (name, json) = (name.as_ref(), json.as_ref());
        let (octets, _) = gather(json.len(), |out| self.from_json_into(name, json, out))?;
        Ok(octets)
    }

    /// The same, written into the buffer.
    ///
    /// # Errors
    ///
    /// Those of [`Types::from_json`], and [`Error::Room`] if the buffer is too small.
    pub fn from_json_into(
        &self,
        name: impl AsRef<[u8]>,
        json: impl AsRef<[u8]>,
        out: &mut [u8],
    ) -> Result<Written, Error> {
        let (name, json) = (name.as_ref(), json.as_ref());
        // SAFETY: as in `canon_into`.
        let answer = unsafe {
            sys::oer_from_json(
                self.held.get(),
                name.as_ptr().cast(),
                name.len(),
                json.as_ptr().cast(),
                json.len(),
                out.as_mut_ptr(),
                out.len(),
            )
        };
        match answer.status {
            sys::OK => written(answer),
            status => Err(Error::of_json(status, answer.why, answer.octets, answer.written)),
        }
    }

    /// Why [`Types::from_json`] rejects the JSON, in lines, each with its line feed, or nothing where it is accepted:
    /// the way to the innermost part that the type rejects, what is wrong with it, and what is wanted there; of a
    /// text that is not JSON the line and the column of the place, and that line with a mark under it.
    ///
    /// # Errors
    ///
    /// [`Error::Memory`].
    ///
    /// ```
    /// let types = oer::Types::parse("A ::= SEQUENCE OF INTEGER (0..5)")?;
    /// let lines = types.explain_json("A", "[1, 6]")?;
    /// assert_eq!(lines, "  at [1]:\n  the number is outside of the bounds; wanted: an INTEGER from 0 to 5\n");
    /// assert_eq!(types.explain_json("A", "[1, 5]")?, "");
    /// # Ok::<(), oer::Error>(())
    /// ```
    pub fn explain_json(&self, name: impl AsRef<[u8]>, json: impl AsRef<[u8]>) -> Result<String, Error> {
        let (name, json) = (name.as_ref(), json.as_ref());
        lines(|out| self.explain_json_into(name, json, out))
    }

    /// The same, written into the buffer, as UTF-8.
    ///
    /// # Errors
    ///
    /// Those of [`Types::explain_json`], and [`Error::Room`] if the buffer is too small.
    pub fn explain_json_into(
        &self,
        name: impl AsRef<[u8]>,
        json: impl AsRef<[u8]>,
        out: &mut [u8],
    ) -> Result<Written, Error> {
        let (name, json) = (name.as_ref(), json.as_ref());
        // SAFETY: as in `canon_into`.
        let answer = unsafe {
            sys::oer_explain_json(
                self.held.get(),
                name.as_ptr().cast(),
                name.len(),
                json.as_ptr().cast(),
                json.len(),
                out.as_mut_ptr().cast::<c_char>(),
                out.len(),
            )
        };
        written(answer)
    }

    /// Why [`Types::check`] rejects the octets, in lines, each with its line feed, or nothing where they are accepted:
    /// what each octet is, up to the part that was being read, the names on the way to it, what is wrong with it, and
    /// what is wanted there. Each part that was read has a line, so they are much longer than the octets.
    ///
    /// # Errors
    ///
    /// [`Error::Memory`].
    ///
    /// ```
    /// let types = oer::Types::parse("A ::= INTEGER (0..5)")?;
    /// let lines = types.explain_octets("A", &[6])?;
    /// assert_eq!(lines.lines().next(), Some("  0  1  -  -  INTEGER  \"06\" -- rejected"));
    /// assert_eq!(lines.lines().last(), Some("  the number is outside of the bounds; wanted: an INTEGER from 0 to 5"));
    /// assert_eq!(types.explain_octets("A", &[5])?, "");
    /// # Ok::<(), oer::Error>(())
    /// ```
    pub fn explain_octets(&self, name: impl AsRef<[u8]>, octets: &[u8]) -> Result<String, Error> {
        let name = name.as_ref();
        lines(|out| self.explain_octets_into(name, octets, out))
    }

    /// The same, written into the buffer, as UTF-8.
    ///
    /// # Errors
    ///
    /// Those of [`Types::explain_octets`], and [`Error::Room`] if the buffer is too small.
    pub fn explain_octets_into(
        &self,
        name: impl AsRef<[u8]>,
        octets: &[u8],
        out: &mut [u8],
    ) -> Result<Written, Error> {
        let name = name.as_ref();
        // SAFETY: as in `canon_into`.
        let answer = unsafe {
            sys::oer_explain_octets(
                self.held.get(),
                name.as_ptr().cast(),
                name.len(),
                octets.as_ptr(),
                octets.len(),
                out.as_mut_ptr().cast::<c_char>(),
                out.len(),
            )
        };
        written(answer)
    }
}

impl Default for Types {
    /// No types.
    fn default() -> Types {
        Types::new()
    }
}

impl Drop for Types {
    fn drop(&mut self) {
        self.clear();
    }
}

impl fmt::Debug for Types {
    fn fmt(&self, out: &mut fmt::Formatter<'_>) -> fmt::Result {
        out.debug_struct("Types").finish_non_exhaustive()
    }
}

/// This compiles only if [`Types`] is `Send`, and if it is not `Sync`: otherwise two impls fit.
const _: fn() = || {
    fn is_send<T: Send>() {}
    is_send::<Types>();
    trait Unless<Fits> {
        fn holds() {}
    }
    impl<T: ?Sized> Unless<()> for T {}
    impl<T: ?Sized + Sync> Unless<u8> for T {}
    <Types as Unless<_>>::holds();
};

/// A message as the library takes it. A range that ends before it starts is outside of all octets.
fn place(range: &Range<usize>) -> sys::OerMessage {
    match range.end.checked_sub(range.start) {
        Some(length) => sys::OerMessage { at: range.start, length },
        None => sys::OerMessage { at: usize::MAX, length: usize::MAX },
    }
}

/// What a check answers.
fn checked(answer: &sys::OerChecked) -> Result<Checked, Error> {
    match answer.status {
        sys::OK => Ok(Checked { octets: answer.octets as usize, canonical: answer.canonical != 0 }),
        status => Err(Error::of_octets(status, answer.why, answer.octets, 0)),
    }
}

/// What is made of each, or [`Error::Memory`].
fn each<T, U>(from: &[T], make: impl Fn(&T) -> U) -> Result<Vec<U>, Error> {
    let mut made = Vec::new();
    made.try_reserve_exact(from.len()).map_err(|_| Error::Memory)?;
    made.extend(from.iter().map(make));
    Ok(made)
}

/// What a call answers that reads octets and writes.
fn written(answer: sys::OerWritten) -> Result<Written, Error> {
    match answer.status {
        sys::OK => Ok(Written { read: answer.octets as usize, size: answer.written as usize }),
        status => Err(Error::of_octets(status, answer.why, answer.octets, answer.written)),
    }
}

/// What a call answers that says where a part of the octets lies.
fn located(octets: &[u8], answer: sys::OerLocated) -> Result<Part<'_>, Error> {
    match answer.status {
        sys::OK => Ok(Part {
            octets: &octets[answer.at..][..answer.length],
            at: answer.at,
            read: answer.octets as usize,
        }),
        status => Err(Error::of_octets(status, answer.why, answer.octets, 0)),
    }
}

/// Calls with a buffer of `room` octets, and where that is too small once more with as many as are
/// needed. Returns what was written, and how many octets were read.
fn gather(room: usize, call: impl Fn(&mut [u8]) -> Result<Written, Error>) -> Result<(Vec<u8>, usize), Error> {
    let mut out = zeros(room)?;
    let mut answer = call(&mut out);
    if let Err(Error::Room { needed }) = answer {
        out = zeros(usize::try_from(needed).map_err(|_| Error::Memory)?)?;
        answer = call(&mut out);
    }
    let written = answer?;
    out.truncate(written.size);
    Ok((out, written.read))
}

/// What a call writes that explains an error.
fn lines(call: impl Fn(&mut [u8]) -> Result<Written, Error>) -> Result<String, Error> {
    let (text, _) = gather(1024, call)?;
    Ok(String::from_utf8(text).expect("the library writes lines as UTF-8"))
}

/// So many zero octets, or [`Error::Memory`].
fn zeros(size: usize) -> Result<Vec<u8>, Error> {
    let mut octets = Vec::new();
    octets.try_reserve_exact(size).map_err(|_| Error::Memory)?;
    octets.resize(size, 0);
    Ok(octets)
}

#[cfg(test)]
mod tests {
    use super::*;

    #[test]
    fn an_allocation_that_fails_is_said() {
        let none = |_: &mut [u8]| Ok(Written { read: 0, size: 0 });
        assert_eq!(gather(usize::MAX, none), Err(Error::Memory));
        let more = |_: &mut [u8]| Err(Error::Room { needed: u64::MAX });
        assert_eq!(gather(0, more), Err(Error::Memory));
        assert_eq!(gather(3, none), Ok((Vec::new(), 0)));
    }
}
