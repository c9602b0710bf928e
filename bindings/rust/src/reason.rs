//! The reasons of rejections, by the numbers that `include/oer.h` gives them.

use std::fmt;

/// An enumeration of reasons, with the number and the name of each.
macro_rules! reasons {
    ($(#[$about:meta])* $enum:ident { $($(#[$what:meta])* $reason:ident = $number:literal,)* }) => {
        $(#[$about])*
        #[derive(Clone, Copy, Debug, PartialEq, Eq, Hash)]
        #[non_exhaustive]
        pub enum $enum {
            $($(#[$what])* $reason = $number,)*
        }

        impl $enum {
            /// The reason that has the number in `oer.h`, if one has.
            pub const fn from_number(number: u32) -> Option<Self> {
                match number {
                    $($number => Some(Self::$reason),)*
                    _ => None,
                }
            }

            /// The number of the reason in `oer.h`.
            pub const fn number(self) -> u32 {
                self as u32
            }

            /// The name of the reason, as the documents have it.
            pub const fn name(self) -> &'static str {
                match self {
                    $(Self::$reason => stringify!($reason),)*
                }
            }
        }

        impl fmt::Display for $enum {
            fn fmt(&self, out: &mut fmt::Formatter<'_>) -> fmt::Result {
                out.write_str(self.name())
            }
        }
    };
}

reasons! {
    /// Why octets are rejected. ENCODING.md says in which order the reasons are looked for.
    Reason {
        /// They end within the value.
        End = 3,
        /// They would pass the limit.
        Limit = 4,
        /// They would pass the end of the addition or alternative that they are in, or end before it.
        Window = 5,
        /// A length begins with 80.
        LengthForm = 6,
        /// A number of no octets.
        EmptyNumber = 7,
        /// A number outside its range or bounds.
        IntegerRange = 8,
        /// An enumeration with count 0, or outside 64 bits.
        EnumForm = 9,
        /// A number that isn't listed, in an enumeration without a marker.
        UnknownEnum = 10,
        /// A size outside its constraint, or above 2^64 - 1.
        Size = 11,
        /// A character outside the type, or not UTF-8.
        Character = 12,
        /// A BIT STRING without an initial octet, or with a wrong one.
        BitUnused = 13,
        /// Contents that are no object identifier.
        ObjectId = 14,
        /// A preamble with a bit set after its last one.
        PreamblePadding = 15,
        /// No tag, or one with a number above 2^32 - 1.
        TagForm = 16,
        /// A tag that no alternative has, in a CHOICE without a marker.
        UnknownAlternative = 17,
        /// A bit set for an addition past place 65,535.
        UnknownAddition = 18,
        /// They nest deeper than the type, one of modules, is written out. Only
        /// [`Types::check_nesting`](crate::Types::check_nesting) says so.
        Nesting = 19,
    }
}

reasons! {
    /// Why definitions are rejected (NOTATION.md).
    TextReason {
        /// The text is not UTF-8 from the place on.
        NotUtf8 = 0,
        /// No token begins here, or it has no end.
        Token = 2,
        /// A token that the grammar doesn't have here.
        Syntax = 3,
        /// A number out of range for its place.
        Number = 4,
        /// A name that no earlier definition has.
        Name = 5,
        /// A name that is defined twice.
        Repeated = 6,
        /// Tags on some alternatives only, or numbers on some items only.
        Mixed = 7,
        /// A value that isn't in the notation of the component's type.
        Default = 8,
        /// A type of more than 32 levels.
        TooDeep = 9,
        /// A type of more than 4,096 parts.
        TooManyParts = 10,
        /// A lower bound above the upper bound.
        BoundOrder = 11,
        /// A least size above the greatest.
        SizeOrder = 12,
        /// A name that is no identifier. No text has this fault.
        BadName = 13,
        /// The same name twice in a SEQUENCE, CHOICE or ENUMERATED.
        RepeatedName = 14,
        /// No items or alternatives. No text has this fault.
        NoItems = 15,
        /// The same number twice in an ENUMERATED.
        RepeatedNumber = 16,
        /// The same tag twice in a CHOICE.
        RepeatedTag = 17,
        /// A default that doesn't fit its type.
        DefaultMisfit = 18,
        /// A SEQUENCE OF whose elements may take no octets.
        EmptyElement = 19,
        /// All types together have more parts than they may have, or hold more octets.
        Parts = 20,
    }
}

reasons! {
    /// Why modules are rejected (MODULES.md).
    ModulesReason {
        /// A text is not UTF-8 from the place on.
        NotUtf8 = 0,
        /// No token begins at the place, or it has no end.
        Token = 1,
        /// A token that the grammar doesn't have at the place, or the text ends there.
        Syntax = 2,
        /// Types or values nest too deep at the place.
        TooDeep = 3,
        /// No definition is understood, and the words say why the first one is refused.
        NoTypes = 4,
    }
}

reasons! {
    /// Why JSON is rejected (JSON.md).
    JsonReason {
        /// JSON of another kind than the type's values have, or of another form.
        Kind = 2,
        /// A key that the type doesn't have, or a text that is no item's name.
        Name = 3,
        /// A component that must be there has no key.
        Missing = 4,
        /// A number out of range.
        Range = 5,
        /// A value of the right form that doesn't fit the type.
        Misfit = 6,
    }
}
