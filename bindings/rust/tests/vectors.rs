//! The vectors of the tests in C, through the crate; and random octets, as many strings as the variable
//! `OER_STRINGS` says.

mod table;

use oer::{
    Checked, Error, JsonReason, ModulesError, ModulesReason, Part, Reason, RejectedModules, TextReason, Types, Written, NO_LIMIT,
};
use std::env;
use std::fs;
use std::ops::Range;
use std::path::Path;

/// A call and what it has to answer.
struct Vector {
    task: String,
    kind: Vec<u8>,
    given: Vec<u8>,
    path: Vec<u8>,
    limit: u64,
    status: u32,
    why: u32,
    octets: u64,
    written: u64,
    answer: Vec<u8>,
}

/// What a call made: octets or JSON, how many octets were read, and `canonical` of a check.
#[derive(Debug, PartialEq)]
struct Made {
    octets: Vec<u8>,
    read: usize,
    canonical: bool,
}

fn from_hex(digits: &str) -> Vec<u8> {
    let digits = digits.trim();
    if digits == "-" {
        return Vec::new();
    }
    (0..digits.len()).step_by(2).map(|at| u8::from_str_radix(&digits[at..at + 2], 16).unwrap()).collect()
}

fn vectors() -> Vec<Vector> {
    let number = |text: &String| text.parse::<u64>().unwrap();
    let vector = |row: &Vec<String>| Vector {
        task: row[0].clone(),
        kind: from_hex(&row[1]),
        given: from_hex(&row[2]),
        path: from_hex(&row[3]),
        limit: number(&row[4]),
        status: number(&row[5]) as u32,
        why: number(&row[6]) as u32,
        octets: number(&row[7]),
        written: number(&row[8]),
        answer: from_hex(&row[9]),
    };
    table::rows("vector").iter().map(vector).collect()
}

impl Vector {
    fn call(&self, types: &Types, name: &[u8]) -> Result<Made, Error> {
        let (octets, read, canonical) = match self.task.as_str() {
            "check" => types.check(name, &self.given).map(|found| (Vec::new(), found.octets, found.canonical)),
            "whole" => types.check_whole(name, &self.given).map(|()| (Vec::new(), self.given.len(), true)),
            "canon" => types.canon_within(name, &self.given, self.limit).map(|made| (made.octets, made.read, false)),
            "part" => types.part(name, &self.given, &self.path).map(|part| (part.octets.to_vec(), part.read, false)),
            "to_json" => types
                .to_json_within(name, &self.given, self.limit)
                .map(|made| (made.text.into_bytes(), made.read, false)),
            "from_json" => types.from_json(name, &self.given).map(|octets| (octets, 0, false)),
            "explain_json" => types.explain_json(name, &self.given).map(|lines| (lines.into_bytes(), 0, false)),
            "explain_octets" => types.explain_octets(name, &self.given).map(|lines| (lines.into_bytes(), 0, false)),
            task => panic!("no task {task}"),
        }?;
        Ok(Made { octets, read, canonical })
    }

    fn call_into(&self, types: &Types, out: &mut [u8]) -> Result<Written, Error> {
        match self.task.as_str() {
            "canon" => types.canon_into("A", &self.given, self.limit, out),
            "part" => types.part_into("A", &self.given, &self.path, out),
            "to_json" => types.to_json_into("A", &self.given, self.limit, out),
            "from_json" => types.from_json_into("A", &self.given, out),
            "explain_json" => types.explain_json_into("A", &self.given, out),
            "explain_octets" => types.explain_octets_into("A", &self.given, out),
            task => panic!("no buffer for {task}"),
        }
    }

    fn wanted(&self) -> Result<Made, Error> {
        match self.status {
            0 => Ok(Made {
                octets: self.answer.clone(),
                read: self.octets as usize,
                canonical: ["check", "whole"].contains(&&*self.task) && self.written == 1,
            }),
            1 if self.task == "from_json" => Err(Error::Json { reason: JsonReason::from_number(self.why).unwrap() }),
            1 => Err(Error::Octets { reason: Reason::from_number(self.why).unwrap(), place: self.octets }),
            6 => Err(Error::NoPath),
            7 => Err(Error::NoStep { read: self.octets }),
            8 => Err(Error::Absent { read: self.octets }),
            9 => Err(Error::NoJson { place: self.octets }),
            11 => Err(Error::NotCanonical),
            12 => Err(Error::Follows { read: self.octets }),
            status => panic!("no row has status {status}"),
        }
    }

    fn types(&self) -> Types {
        types_of(&self.kind)
    }
}

fn types_of(kind: &[u8]) -> Types {
    Types::parse([b"A ::= ", kind].concat()).unwrap()
}

#[test]
fn vectors_are_answered() {
    for row in vectors() {
        let types = row.types();
        assert_eq!(row.call(&types, b"A"), row.wanted(), "{} {:02x?}", row.task, row.given);
        for name in [&b"B"[..], b"", b"\xff"] {
            assert_eq!(row.call(&types, name), Err(Error::Unnamed));
        }
    }
}

/// A way to a part: by a path or by names. The types, a Name, octets, the text of the way.
type Way = for<'a> fn(&Types, &str, &'a [u8], &[u8]) -> Result<Part<'a>, Error>;
/// The same into a buffer.
type WayInto = fn(&Types, &str, &[u8], &[u8], &mut [u8]) -> Result<Written, Error>;

/// That the part of the row lies where it says, and is written into a buffer that has room for it.
fn lies(row: &[String], part: Way, part_into: WayInto) {
    let (types, given, way) = (types_of(&from_hex(&row[0])), from_hex(&row[1]), from_hex(&row[2]));
    let numbers: Vec<u64> = row[3..].iter().map(|text| text.parse().unwrap()).collect();
    let (at, length) = (numbers[3] as usize, numbers[4] as usize);
    let wanted = match numbers[0] as u32 {
        0 => Ok(at..at + length),
        1 => Err(Error::Octets { reason: Reason::from_number(numbers[1] as u32).unwrap(), place: numbers[2] }),
        6 => Err(Error::NoPath),
        7 => Err(Error::NoStep { read: numbers[2] }),
        8 => Err(Error::Absent { read: numbers[2] }),
        status => panic!("no row has status {status}"),
    };
    let found = part(&types, "A", &given, &way);
    assert_eq!(found.map(|part| part.range()), wanted, "{given:02x?}");
    assert!(found.map_or(true, |part| part.read as u64 == numbers[2]), "{given:02x?}");
    assert_eq!(found.map(|part| part.octets.as_ptr()), wanted.map(|place| given[place].as_ptr()));
    assert_eq!(part(&types, "B", &given, &way), Err(Error::Unnamed));
    assert_eq!(part(&Types::new(), "A", &given, &way), Err(Error::NoTypes));
    for room in 0..length {
        let mut out = vec![0xbb; room];
        assert_eq!(part_into(&types, "A", &given, &way, &mut out), Err(Error::Room { needed: length as u64 }));
        assert_eq!(out, vec![0xbb; room]);
    }
    let mut out = vec![0xcc; length + 3];
    let written = found.map(|part| Written { read: part.read, size: length });
    assert_eq!(part_into(&types, "A", &given, &way, &mut out), written);
    assert_eq!(out, [&given[at..at + length], &[0xcc; 3]].concat());
}

#[test]
fn parts_lie_where_the_table_says() {
    for row in table::rows("place") {
        lies(&row, |types, name, octets, path| types.part(name, octets, path), |types, name, octets, path, out| {
            types.part_into(name, octets, path, out)
        });
    }
}

#[test]
fn named_parts_lie_where_the_table_says() {
    for row in table::rows("named") {
        lies(&row, |types, name, octets, names| types.part_named(name, octets, names), |types, name, octets, names, out| {
            types.part_named_into(name, octets, names, out)
        });
    }
}

#[test]
fn many_are_answered_as_one() {
    for row in vectors().iter().filter(|row| row.task == "check") {
        let (types, size) = (row.types(), row.given.len());
        let messages = [0..size, 0..size / 2, size / 2..size, size..size];
        let answers = types.check_many("A", &row.given, &messages).unwrap();
        for (message, answer) in messages.iter().zip(&answers) {
            assert_eq!(*answer, types.check("A", &row.given[message.clone()]), "{message:?} of {:02x?}", row.given);
        }
        let mut outside = vec![1..size + 1, size + 1..size + 1, usize::MAX..usize::MAX, 0..usize::MAX];
        outside.extend((0..size).map(|end| Range { start: size, end }));
        assert_eq!(types.check_many("A", &row.given, &outside), Ok(vec![Err(Error::Outside); 4 + size]));
        assert_eq!(types.check_many("B", &row.given, &messages), Err(Error::Unnamed));
        assert_eq!(Types::new().check_many("A", &row.given, &messages), Err(Error::NoTypes));
    }
}

fn answers_often(types: Types) -> bool {
    let answer = || types.canon("A", &[0x02, 0x00, 0x02, 0x01, 0x07]).unwrap().octets;
    (0..10_000).all(|_| answer() == [0x01, 0x02, 0xff, 0xff])
}

#[test]
fn threads_share_types() {
    let types = types_of(b"SEQUENCE OF BOOLEAN");
    let start = |own: Types| std::thread::spawn(move || answers_often(own));
    let threads: Vec<_> = (0..4).map(|_| start(types.share().unwrap())).collect();
    drop(types);
    assert!(threads.into_iter().all(|thread| thread.join().unwrap()));
    assert_eq!(Types::new().share().unwrap_err(), Error::NoTypes);
}

#[test]
fn buffers_are_filled_or_kept() {
    for row in vectors().iter().filter(|row| !["check", "whole"].contains(&&*row.task)) {
        let types = row.types();
        for room in 0..row.answer.len() {
            let mut out = vec![0xbb; room];
            assert_eq!(row.call_into(&types, &mut out), Err(Error::Room { needed: row.written }));
            assert_eq!(out, vec![0xbb; room]);
        }
        let mut out = vec![0xcc; row.answer.len() + 3];
        let wanted = row.wanted().map(|made| Written { read: made.read, size: made.octets.len() });
        assert_eq!(row.call_into(&types, &mut out), wanted);
        assert_eq!(out, [&row.answer[..], &[0xcc; 3]].concat());
    }
}

#[test]
fn calls_without_types_are_rejected() {
    for row in vectors() {
        assert_eq!(row.call(&Types::new(), b"A"), Err(Error::NoTypes));
        assert_eq!(row.call(&Types::default(), b"A"), Err(Error::NoTypes));
        let mut types = row.types();
        for _ in 0..2 {
            types.clear();
            assert_eq!(row.call(&types, b"A"), Err(Error::NoTypes));
        }
        let mut moved = Box::new(row.types());
        assert_eq!(row.call(&moved, b"A"), row.wanted());
        moved.read("B ::= NULL").unwrap();
        assert_eq!(row.call(&moved, b"A"), Err(Error::Unnamed));
    }
}

#[test]
fn rejected_definitions_leave_the_types() {
    for row in table::rows("rejected") {
        let (text, why) = (from_hex(&row[0]), row[1].parse().unwrap());
        let reason = TextReason::from_number(why).unwrap();
        let wanted = Error::Definitions { reason, place: row[2].parse().unwrap() };
        assert_eq!(Types::parse(&text).unwrap_err(), wanted);
        let mut types = types_of(b"BOOLEAN");
        assert_eq!(types.read(&text), Err(wanted));
        assert_eq!(types.check("A", &[0xff]), Ok(Checked { octets: 1, canonical: true }));
        assert_eq!((wanted.reason(), wanted.place()), (Some(reason.name()), row[2].parse().ok()));
    }
}

#[test]
fn rejected_definitions_are_explained() {
    for row in table::rows("explained") {
        let (text, lines) = (from_hex(&row[0]), from_hex(&row[1]));
        assert_eq!(Types::explain_types(&text).unwrap().into_bytes(), lines, "{text:02x?}");
        for room in 0..lines.len() {
            let mut out = vec![0xbb; room];
            assert_eq!(Types::explain_types_into(&text, &mut out), Err(Error::Room { needed: lines.len() as u64 }));
            assert_eq!(out, vec![0xbb; room]);
        }
        let mut out = vec![0xcc; lines.len() + 3];
        assert_eq!(Types::explain_types_into(&text, &mut out), Ok(Written { read: 0, size: lines.len() }));
        assert_eq!(out, [&lines[..], &[0xcc; 3]].concat());
    }
    for row in table::rows("rejected") {
        assert_ne!(Types::explain_types(from_hex(&row[0])).unwrap(), "");
    }
}

#[test]
fn rejected_modules_are_said_in_words() {
    for row in table::rows("modules") {
        let number = |place: usize| row[place].parse::<u64>().unwrap();
        let texts: Vec<_> = row[..2].iter().filter(|text| *text != "-").map(|text| from_hex(text)).collect();
        let wanted = ModulesError::Rejected(RejectedModules {
            reason: ModulesReason::from_number(number(2) as u32).unwrap(),
            text: number(3),
            place: number(4),
            line: number(5),
            column: number(6),
            words: String::from_utf8(from_hex(&row[7])).unwrap(),
        });
        assert_eq!(Types::from_modules(&texts, 0).unwrap_err(), wanted);
    }
    let rejected: Box<dyn std::error::Error> = Box::new(Types::from_modules(&["M"; 0], 0).unwrap_err());
    assert_eq!(rejected.to_string(), "modules rejected: the modules give no types");
}

#[test]
fn the_modules_of_the_example() {
    let folder = Path::new(env!("CARGO_MANIFEST_DIR")).join("../../examples/modules");
    let texts = ["messages.asn", "common.asn"].map(|name| fs::read_to_string(folder.join(name)).unwrap());
    let types = Types::from_modules(&texts, 0).unwrap();
    let message = [0x80, 0, 0, 0, 0, 1, 0, 0, 0, 2];
    let json = r#"{"report":{"position":{"north":1,"east":2}}}"#;
    assert_eq!(types.check_whole("Message", &message), Ok(()));
    assert_eq!(types.from_json("Message", json).unwrap(), message);
    assert_eq!(types.check("Log", &message), Err(Error::Unnamed));
    let deep = [0x01, 0x81, 0x80, 0x00];
    let once = Types::from_modules(&texts, 1).unwrap();
    assert_eq!(types.check("Forwarded", &deep).unwrap_err().reason(), Some("IntegerRange"));
    assert_eq!(types.check_nesting("Forwarded", &deep), Ok(()));
    assert_eq!(once.check("Forwarded", &deep).unwrap_err().reason(), Some("UnknownAlternative"));
    assert_eq!(once.check_nesting("Forwarded", &deep), Err(Error::Octets { reason: Reason::Nesting, place: 3 }));
}

/// The name of the header without its underscores, in small letters.
fn spelt(name: &str) -> String {
    name.replace('_', "").to_lowercase()
}

#[test]
fn numbers_are_those_of_the_header() {
    let rows = table::rows("number");
    for row in &rows[13..] {
        let (name, number) = (row[0].strip_prefix("OER_").unwrap(), row[1].parse().unwrap());
        let (found, name) = match name.split_once('_') {
            Some(("TEXT", name)) => (TextReason::from_number(number).map(|why| (why.name(), why.number())), name),
            Some(("MODULES", name)) => (ModulesReason::from_number(number).map(|why| (why.name(), why.number())), name),
            Some(("JSON", name)) => (JsonReason::from_number(number).map(|why| (why.name(), why.number())), name),
            _ => (Reason::from_number(number).map(|why| (why.name(), why.number())), name),
        };
        let (found, again) = found.unwrap();
        assert_eq!((found.to_lowercase(), again), (spelt(name), number));
    }
    assert_eq!(rows.len(), 60);
    assert_eq!((Reason::from_number(2), TextReason::from_number(1), JsonReason::from_number(7)), (None, None, None));
    assert_eq!(table::rows("version")[0][0], oer::version().to_string());
}

#[test]
fn errors_are_errors() {
    let types = Types::parse("A ::= OCTET STRING").unwrap();
    let rejected: Box<dyn std::error::Error> = Box::new(types.check("A", &[3, 0x61]).unwrap_err());
    assert_eq!(rejected.to_string(), "octets rejected: End, 2 octets looked at");
    assert_eq!(types.check("A", &[3]).unwrap_err().place(), Some(1));
    let absent = Error::Absent { read: 1 };
    assert_eq!((absent.reason(), absent.place()), (None, None));
    let rejected = types.from_json("A", "true").unwrap_err();
    assert_eq!((rejected.reason(), rejected.place()), (Some("Kind"), None));
    let rejected = types.from_json("A", "[true, yes]").unwrap_err();
    assert_eq!((rejected.reason(), rejected.place()), (None, Some(7)));
    assert_eq!(rejected.to_string(), "not JSON at octet 7");
}

#[test]
fn long_json_is_made_with_a_second_buffer() {
    let types = types_of(b"SEQUENCE OF SEQUENCE {a-long-name-of-a-component BOOLEAN}");
    let octets = [&[1, 100][..], &[0xff; 100]].concat();
    let json = types.to_json("A", &octets).unwrap();
    assert_eq!((json.text.len(), json.read), (100 * 36 + 1, octets.len()));
    assert_eq!(types.from_json("A", json.text), Ok(octets));
    let names: Vec<_> = (0..8).map(|number| format!("{}{number} NULL", "n".repeat(200))).collect();
    let types = types_of(format!("SEQUENCE {{{}}}", names.join(", ")).as_bytes());
    assert!(types.explain_json("A", "{\"m\":null}").unwrap().len() > 8 * 200);
}

#[test]
fn the_certificate_of_the_example() {
    let folder = Path::new(env!("CARGO_MANIFEST_DIR")).join("../../examples/ieee1609dot2");
    let file = |name: &str| fs::read_to_string(folder.join(name)).unwrap();
    let types = Types::parse(file("types.asn")).unwrap();
    let (certificate, basic) = (from_hex(&file("certificate-rsu.hex")), from_hex(&file("certificate-rsu-basic.hex")));
    assert_eq!(types.check("Certificate", &certificate), Ok(Checked { octets: 230, canonical: true }));
    assert_eq!(types.check("Certificate", &basic), Ok(Checked { octets: 236, canonical: false }));
    assert_eq!(types.check_whole("Certificate", &certificate), Ok(()));
    assert_eq!(types.check_whole("Certificate", &basic), Err(Error::NotCanonical));
    assert_eq!(types.check_whole("Certificate", &[&certificate[..], &[0]].concat()), Err(Error::Follows { read: 230 }));
    assert_eq!(types.canon("Certificate", &basic).unwrap().octets, certificate);
    let rejected = types.canon_within("Certificate", &basic, 235).unwrap_err();
    assert_eq!(rejected.reason(), Some("Limit"));
    let part = types.part("Certificate", &certificate, "c3").unwrap();
    assert_eq!((part.range(), part.read, part.octets), (12..164, 230, &from_hex(&file("tbs-rsu.hex"))[..]));
    assert_eq!(types.part_named("Certificate", &certificate, "toBeSigned"), Ok(part));
    let json = types.to_json("Certificate", &basic).unwrap();
    assert_eq!(types.from_json("Certificate", json.text), Ok(certificate));
}

/// A generator of numbers (xorshift).
struct Random(u64);

impl Random {
    fn below(&mut self, bound: u64) -> u64 {
        self.0 ^= self.0 << 13;
        self.0 ^= self.0 >> 7;
        self.0 ^= self.0 << 17;
        (self.0 >> 33) % bound
    }

    /// Small octets, so that many strings are encodings; or an octet of any kind.
    fn octet(&mut self) -> u8 {
        const COMMON: [u8; 10] = [0x00, 0x01, 0x02, 0x03, 0x80, 0x81, 0x82, 0xff, 0x20, 0x60];
        match self.below(4) {
            0 => self.below(256) as u8,
            _ => COMMON[self.below(COMMON.len() as u64) as usize],
        }
    }
}

/// That check and canon agree on the octets. Returns what check found, if they begin with an encoding.
fn compare(types: &Types, octets: &[u8]) -> Option<Checked> {
    let (checked, canon) = (types.check("A", octets), types.canon_within("A", octets, NO_LIMIT));
    match (checked, canon) {
        (Ok(found), Ok(made)) => {
            assert_eq!(found.octets, made.read, "{octets:02x?}");
            assert_eq!(found.canonical, octets[..made.read] == made.octets, "{octets:02x?}");
            let again = Checked { octets: made.octets.len(), canonical: true };
            assert_eq!(types.check("A", &made.octets), Ok(again), "{octets:02x?}");
            Some(found)
        }
        (Err(Error::Octets { reason, place }), Err(other)) => {
            assert_eq!(Error::Octets { reason, place }, other, "{octets:02x?}");
            assert!(place <= octets.len() as u64, "{octets:02x?}");
            None
        }
        (checked, canon) => panic!("{octets:02x?}: {checked:?}, {canon:?}"),
    }
}

#[test]
fn check_and_canon_agree_on_random_octets() {
    let strings: u64 = env::var("OER_STRINGS").map_or(100_000, |count| count.parse().unwrap());
    let mut kinds: Vec<_> = vectors().into_iter().map(|row| row.kind).collect();
    kinds.sort();
    kinds.dedup();
    let (mut random, mut tried, mut found) = (Random(88172645463325252), 0, Vec::new());
    for (place, kind) in kinds.iter().enumerate() {
        let types = types_of(kind);
        while tried < strings * (place as u64 + 1) / kinds.len() as u64 {
            let octets: Vec<u8> = (0..random.below(25)).map(|_| random.octet()).collect();
            found.extend(compare(&types, &octets));
            tried += 1;
        }
    }
    let (encodings, canonicals) = (found.len() as u64, found.iter().filter(|found| found.canonical).count() as u64);
    assert!(tried == strings && strings > 0);
    assert!(encodings > strings / 10 && encodings < strings, "{encodings} encodings of {strings}");
    assert!(canonicals > 0 && canonicals < encodings, "{canonicals} canonical of {encodings}");
    println!("{encodings} encodings of {strings} strings, {canonicals} of them canonical");
}
