//! A plain codec, unproved, to measure ours against: the same trees of types and values, read from
//! a slice or a reader, and written to a vector.
//!
//!     rustc --edition 2021 -C opt-level=3 bench/plain.rs -o plain
//!     ./plain files DIR                     writes the octets that are measured
//!     ./plain TASK TURNS NAME OCTETS        as `oer_bench TASK TURNS TYPES NAME OCTETS`
use std::io::{Read, Write};

type Answer<T> = Result<T, u64>;

// ---------- types and values ----------

#[derive(Clone)]
enum Need { Must, May, Default(Value) }

#[derive(Clone)]
struct Field { #[allow(dead_code)] name: String, shape: Shape, need: Need }

#[derive(Clone)]
struct Alt { #[allow(dead_code)] name: String, tag: u32, shape: Shape }

type Bounds = (u64, Option<u64>);

#[derive(Clone)]
enum Shape {
    Boolean,
    Null,
    Integer(Option<i128>, Option<i128>),
    Enumerated(Vec<i64>, bool),
    BitString(Bounds),
    OctetString(Bounds),
    Utf8(Bounds),
    Sequence(Vec<Field>, Option<Vec<Field>>),
    SequenceOf(Bounds, Box<Shape>),
    Choice(Vec<Alt>, Option<Vec<Alt>>),
}

#[derive(Clone, PartialEq, Debug)]
struct Unknown { place: u16, octets: Vec<u8> }

#[derive(Clone, PartialEq, Debug)]
enum Value {
    Bool(bool),
    Null,
    Int(i128),
    Enum(i64),
    Bits(Vec<u8>, u64),
    Octets(Vec<u8>),
    Text(String),
    Seq { root: Vec<Option<Value>>, added: Vec<Option<Value>>, unknown: Vec<Unknown> },
    List(Vec<Value>),
    Chosen(u8, u32, Box<Value>),
    Foreign(u8, u32, Vec<u8>),
}

fn allows(size: Bounds, n: u64) -> bool { size.0 <= n && size.1.map_or(true, |high| n <= high) }

fn fixed(size: Bounds) -> Option<u64> { if size.1 == Some(size.0) { Some(size.0) } else { None } }

enum Form { Fixed(usize, bool), Counted(bool) }

fn form(low: Option<i128>, high: Option<i128>) -> Form {
    if let Some(low) = low {
        if low >= 0 {
            for octets in [1usize, 2, 4, 8] {
                if high.map_or(false, |high| high < 1i128 << (8 * octets)) { return Form::Fixed(octets, false); }
            }
            return Form::Counted(false);
        }
        if let Some(high) = high {
            for octets in [1usize, 2, 4, 8] {
                let most = 1i128 << (8 * octets - 1);
                if low >= -most && high < most { return Form::Fixed(octets, true); }
            }
        }
    }
    Form::Counted(true)
}

// ---------- reading ----------

trait Source {
    fn group(&mut self, n: u64, into: &mut Vec<u8>) -> Answer<()>;
    fn one(&mut self) -> Answer<u8>;
    fn left(&self) -> u64;
    fn taken(&self) -> u64;
    fn set_end(&mut self, end: u64) -> u64;
}

struct Slice<'a> { octets: &'a [u8], at: usize, end: usize }

impl Source for Slice<'_> {
    #[inline]
    fn group(&mut self, n: u64, into: &mut Vec<u8>) -> Answer<()> {
        if n > self.left() { return Err(self.at as u64); }
        into.extend_from_slice(&self.octets[self.at..self.at + n as usize]);
        self.at += n as usize;
        Ok(())
    }
    #[inline]
    fn one(&mut self) -> Answer<u8> {
        if self.at == self.end { return Err(self.at as u64); }
        self.at += 1;
        Ok(self.octets[self.at - 1])
    }
    #[inline]
    fn left(&self) -> u64 { (self.end - self.at) as u64 }
    fn taken(&self) -> u64 { self.at as u64 }
    fn set_end(&mut self, end: u64) -> u64 { let old = self.end as u64; self.end = end as usize; old }
}

/// Asks the reader for no octet past the group in hand.
struct Pull<R: Read> { reader: R, taken: u64, end: u64 }

impl<R: Read> Source for Pull<R> {
    fn group(&mut self, n: u64, into: &mut Vec<u8>) -> Answer<()> {
        if n > self.left() { return Err(self.taken); }
        let mut left = n as usize;
        while left > 0 {
            let start = into.len();
            let some = left.min(start.clamp(4096, 65536));
            into.resize(start + some, 0);
            let mut at = start;
            while at < into.len() {
                let got = self.reader.read(&mut into[at..]).map_err(|_| self.taken)?;
                if got == 0 { return Err(self.taken); }
                at += got;
                self.taken += got as u64;
            }
            left -= some;
        }
        Ok(())
    }
    fn one(&mut self) -> Answer<u8> {
        let mut octet = [0];
        if self.left() == 0 || self.reader.read(&mut octet).unwrap_or(0) == 0 { return Err(self.taken); }
        self.taken += 1;
        Ok(octet[0])
    }
    fn left(&self) -> u64 { self.end - self.taken }
    fn taken(&self) -> u64 { self.taken }
    fn set_end(&mut self, end: u64) -> u64 { std::mem::replace(&mut self.end, end) }
}

struct Pieces<'a> { octets: &'a [u8], most: usize }

impl Read for Pieces<'_> {
    fn read(&mut self, into: &mut [u8]) -> std::io::Result<usize> {
        let count = into.len().min(self.most).min(self.octets.len());
        into[..count].copy_from_slice(&self.octets[..count]);
        self.octets = &self.octets[count..];
        Ok(count)
    }
}

fn length<S: Source>(s: &mut S) -> Answer<u64> {
    let first = s.one()?;
    if first < 128 {
        let n = first as u64;
        return if n > s.left() { Err(s.taken()) } else { Ok(n) };
    }
    if first == 128 { return Err(s.taken()); }
    let mut n = 0u64;
    for _ in 0..first & 127 {
        if n >> 56 != 0 { return Err(s.taken()); }
        n = n << 8 | s.one()? as u64;
    }
    if n > s.left() { Err(s.taken()) } else { Ok(n) }
}

fn number<S: Source>(s: &mut S, n: u64, signed: bool) -> Answer<i128> {
    if n == 0 { return Err(s.taken()); }
    let first = s.one()?;
    let mut v: i128 = if signed { first as i8 as i128 } else { first as i128 };
    for _ in 1..n { v = v.checked_mul(256).ok_or(s.taken())? | s.one()? as i128; }
    Ok(v)
}

fn octets<S: Source>(s: &mut S, n: u64) -> Answer<Vec<u8>> {
    let mut octets = Vec::new();
    s.group(n, &mut octets)?;
    Ok(octets)
}

fn tag<S: Source>(s: &mut S) -> Answer<(u8, u32)> {
    let first = s.one()?;
    if first & 63 < 63 { return Ok((first >> 6, (first & 63) as u32)); }
    let mut n = 0u32;
    loop {
        let octet = s.one()?;
        if n == 0 && octet == 128 || n >> 25 != 0 { return Err(s.taken()); }
        n = n << 7 | (octet & 127) as u32;
        if octet < 128 { return if n < 63 { Err(s.taken()) } else { Ok((first >> 6, n)) }; }
    }
}

fn bit(octets: &[u8], at: usize) -> bool { octets[at / 8] >> (7 - at % 8) & 1 != 0 }

fn open<S: Source, T>(s: &mut S, body: impl FnOnce(&mut S) -> Answer<T>) -> Answer<T> {
    let n = length(s)?;
    let end = s.taken() + n;
    let outer = s.set_end(end);
    let value = body(s)?;
    if s.taken() != end { return Err(s.taken()); }
    s.set_end(outer);
    Ok(value)
}

fn read_later<S: Source>(additions: &[Field], s: &mut S) -> Answer<(Vec<Option<Value>>, Vec<Unknown>)> {
    let n = length(s)?;
    if n == 0 { return Err(s.taken()); }
    let unused = s.one()? as usize;
    let map = octets(s, n - 1)?;
    let bits = (map.len() * 8).checked_sub(unused).ok_or(s.taken())?;
    let mut added = Vec::new();
    for (i, addition) in additions.iter().enumerate() {
        let here = i < bits && bit(&map, i);
        added.push(if here { Some(open(s, |s| read(&addition.shape, s))?) } else { None });
    }
    let mut unknown = Vec::new();
    for i in additions.len()..bits {
        if bit(&map, i) {
            if i > 65535 { return Err(s.taken()); }
            let n = length(s)?;
            unknown.push(Unknown { place: i as u16, octets: octets(s, n)? });
        }
    }
    Ok((added, unknown))
}

fn read_sequence<S: Source>(root: &[Field], additions: &Option<Vec<Field>>, s: &mut S) -> Answer<Value> {
    let first = additions.is_some() as usize;
    let count = first + root.iter().filter(|f| !matches!(f.need, Need::Must)).count();
    let bits = octets(s, (count as u64 + 7) / 8)?;
    for j in count..bits.len() * 8 { if bit(&bits, j) { return Err(s.taken()); } }
    let mut places = Vec::new();
    let mut j = first;
    for field in root {
        let here = match field.need { Need::Must => true, _ => { j += 1; bit(&bits, j - 1) } };
        places.push(if here { Some(read(&field.shape, s)?) } else { None });
    }
    let (mut added, mut unknown) = (Vec::new(), Vec::new());
    if let Some(additions) = additions {
        if bit(&bits, 0) { (added, unknown) = read_later(additions, s)?; }
        else { for _ in additions { added.push(None); } }
    }
    Ok(Value::Seq { root: places, added, unknown })
}

fn read_choice<S: Source>(root: &[Alt], additions: &Option<Vec<Alt>>, s: &mut S) -> Answer<Value> {
    let (class, n) = tag(s)?;
    for alt in root {
        if class == 2 && alt.tag == n { return Ok(Value::Chosen(class, n, Box::new(read(&alt.shape, s)?))); }
    }
    let Some(additions) = additions else { return Err(s.taken()) };
    for alt in additions {
        if class == 2 && alt.tag == n {
            return Ok(Value::Chosen(class, n, Box::new(open(s, |s| read(&alt.shape, s))?)));
        }
    }
    let count = length(s)?;
    Ok(Value::Foreign(class, n, octets(s, count)?))
}

fn sized<S: Source>(size: Bounds, s: &mut S) -> Answer<Vec<u8>> {
    let n = match fixed(size) { Some(n) => n, None => length(s)? };
    if !allows(size, n) { return Err(s.taken()); }
    octets(s, n)
}

fn read_bits<S: Source>(size: Bounds, s: &mut S) -> Answer<Value> {
    let (mut packed, count) = match fixed(size) {
        Some(count) => (octets(s, (count + 7) / 8)?, count),
        None => {
            let n = length(s)?;
            if n == 0 { return Err(s.taken()); }
            let unused = s.one()? as u64;
            let count = (8 * (n - 1)).checked_sub(unused).ok_or(s.taken())?;
            if unused > 7 || !allows(size, count) { return Err(s.taken()); }
            (octets(s, n - 1)?, count)
        }
    };
    if count % 8 != 0 { let last = packed.len() - 1; packed[last] &= 0xffu8 << (8 - count % 8); }
    Ok(Value::Bits(packed, count))
}

fn read<S: Source>(shape: &Shape, s: &mut S) -> Answer<Value> {
    match shape {
        Shape::Boolean => Ok(Value::Bool(s.one()? != 0)),
        Shape::Null => Ok(Value::Null),
        Shape::Integer(low, high) => {
            let v = match form(*low, *high) {
                Form::Fixed(n, signed) => number(s, n as u64, signed)?,
                Form::Counted(signed) => { let n = length(s)?; number(s, n, signed)? }
            };
            if low.map_or(false, |low| v < low) || high.map_or(false, |high| v > high) { return Err(s.taken()); }
            Ok(Value::Int(v))
        }
        Shape::Enumerated(items, extensible) => {
            let first = s.one()?;
            let v = if first < 128 { first as i128 } else { number(s, (first & 127) as u64, true)? };
            let v = i64::try_from(v).map_err(|_| s.taken())?;
            if *extensible || items.contains(&v) { Ok(Value::Enum(v)) } else { Err(s.taken()) }
        }
        Shape::BitString(size) => read_bits(*size, s),
        Shape::OctetString(size) => Ok(Value::Octets(sized(*size, s)?)),
        Shape::Utf8(size) => {
            let n = length(s)?;
            let text = String::from_utf8(octets(s, n)?).map_err(|_| s.taken())?;
            if allows(*size, text.chars().count() as u64) { Ok(Value::Text(text)) } else { Err(s.taken()) }
        }
        Shape::Sequence(root, additions) => read_sequence(root, additions, s),
        Shape::SequenceOf(size, item) => {
            let n = length(s)?;
            let n = number(s, n, false)? as u128;
            if n > s.left() as u128 || !allows(*size, n as u64) { return Err(s.taken()); }
            let mut list = Vec::new();
            for _ in 0..n { list.push(read(item, s)?); }
            Ok(Value::List(list))
        }
        Shape::Choice(root, additions) => read_choice(root, additions, s),
    }
}

// ---------- writing ----------

fn put<W: Write>(octets: &[u8], w: &mut W) { w.write_all(octets).unwrap() }

fn put_length<W: Write>(n: u64, w: &mut W) {
    if n < 128 { return put(&[n as u8], w); }
    let count = (71 - n.leading_zeros() as usize) / 8;
    put(&[128 | count as u8], w);
    put(&n.to_be_bytes()[8 - count..], w);
}

fn unsigned_octets(v: i128) -> usize { ((135 - v.leading_zeros() as usize) / 8).max(1) }

fn signed_octets(v: i128) -> usize {
    let size = if v < 0 { !v } else { v };
    (128 - size.leading_zeros() as usize) / 8 + 1
}

fn put_number<W: Write>(v: i128, count: usize, w: &mut W) { put(&v.to_be_bytes()[16 - count..], w) }

fn put_tag<W: Write>(class: u8, number: u32, w: &mut W) {
    if number < 63 { return put(&[class << 6 | number as u8], w); }
    put(&[class << 6 | 63], w);
    for i in (0..5).rev() {
        if number >> (7 * i) != 0 { put(&[(number >> (7 * i) & 127) as u8 | if i > 0 { 128 } else { 0 }], w); }
    }
}

/// The component, where it isn't its default.
fn kept<'a>(field: &Field, place: &'a Option<Value>) -> Option<&'a Value> {
    let value = place.as_ref()?;
    match &field.need { Need::Default(default) if default == value => None, _ => Some(value) }
}

fn put_bits<W: Write>(bits: impl Iterator<Item = bool>, w: &mut W) {
    let (mut octet, mut n) = (0u8, 0);
    for bit in bits {
        octet |= (bit as u8) << (7 - n);
        n += 1;
        if n == 8 { put(&[octet], w); octet = 0; n = 0; }
    }
    if n > 0 { put(&[octet], w); }
}

fn put_open<W: Write>(shape: &Shape, value: &Value, w: &mut W) {
    let mut body = Vec::new();
    write(shape, value, &mut body);
    put_length(body.len() as u64, w);
    put(&body, w);
}

fn write_sequence<W: Write>(root: &[Field], additions: &Option<Vec<Field>>, places: &[Option<Value>], added: &[Option<Value>], unknown: &[Unknown], w: &mut W) {
    let extended = added.iter().any(|place| place.is_some()) || !unknown.is_empty();
    let first = additions.iter().map(|_| extended);
    let may = root.iter().zip(places).filter(|(f, _)| !matches!(f.need, Need::Must));
    put_bits(first.chain(may.map(|(f, place)| kept(f, place).is_some())), w);
    for (field, place) in root.iter().zip(places) {
        if let Some(value) = kept(field, place) { write(&field.shape, value, w); }
    }
    let Some(additions) = additions else { return };
    if !extended { return; }
    let mut bits: Vec<bool> = added.iter().map(|place| place.is_some()).collect();
    for one in unknown { bits.resize(one.place as usize, false); bits.push(true); }
    put_length(((bits.len() + 7) / 8 + 1) as u64, w);
    put(&[((8 - bits.len() % 8) % 8) as u8], w);
    put_bits(bits.into_iter(), w);
    for (addition, place) in additions.iter().zip(added) {
        if let Some(value) = place { put_open(&addition.shape, value, w); }
    }
    for one in unknown { put_length(one.octets.len() as u64, w); put(&one.octets, w); }
}

fn write<W: Write>(shape: &Shape, value: &Value, w: &mut W) {
    match (shape, value) {
        (Shape::Boolean, Value::Bool(v)) => put(&[if *v { 255 } else { 0 }], w),
        (Shape::Null, Value::Null) => {}
        (Shape::Integer(low, high), Value::Int(v)) => match form(*low, *high) {
            Form::Fixed(n, _) => put_number(*v, n, w),
            Form::Counted(signed) => {
                let n = if signed { signed_octets(*v) } else { unsigned_octets(*v) };
                put_length(n as u64, w);
                put_number(*v, n, w);
            }
        },
        (Shape::Enumerated(..), Value::Enum(v)) => {
            if (0..128).contains(v) { return put(&[*v as u8], w); }
            let n = signed_octets(*v as i128);
            put(&[128 | n as u8], w);
            put_number(*v as i128, n, w);
        }
        (Shape::BitString(size), Value::Bits(octets, count)) => {
            if fixed(*size).is_none() {
                put_length(octets.len() as u64 + 1, w);
                put(&[((8 - count % 8) % 8) as u8], w);
            }
            put(octets, w);
        }
        (Shape::OctetString(size), Value::Octets(octets)) => {
            if fixed(*size).is_none() { put_length(octets.len() as u64, w); }
            put(octets, w);
        }
        (Shape::Utf8(_), Value::Text(text)) => { put_length(text.len() as u64, w); put(text.as_bytes(), w); }
        (Shape::Sequence(fields, additions), Value::Seq { root, added, unknown }) =>
            write_sequence(fields, additions, root, added, unknown, w),
        (Shape::SequenceOf(_, item), Value::List(list)) => {
            let n = unsigned_octets(list.len() as i128);
            put_length(n as u64, w);
            put_number(list.len() as i128, n, w);
            for value in list { write(item, value, w); }
        }
        (Shape::Choice(root, additions), Value::Chosen(class, number, value)) => {
            put_tag(*class, *number, w);
            for alt in root { if alt.tag == *number { return write(&alt.shape, value, w); } }
            for alt in additions.iter().flatten() { if alt.tag == *number { return put_open(&alt.shape, value, w); } }
        }
        (Shape::Choice(..), Value::Foreign(class, number, octets)) => {
            put_tag(*class, *number, w);
            put_length(octets.len() as u64, w);
            put(octets, w);
        }
        _ => unreachable!(),
    }
}

/// Takes all octets and keeps none.
struct Count(u64);

impl Write for Count {
    fn write(&mut self, octets: &[u8]) -> std::io::Result<usize> { self.0 += octets.len() as u64; Ok(octets.len()) }
    fn flush(&mut self) -> std::io::Result<()> { Ok(()) }
}

// ---------- checking ----------

/// Goes through octets without making a value, and finds out whether they are canonical.
struct Check<'a> { s: Slice<'a>, canonical: bool }

impl<'a> Check<'a> {
    fn wants(&mut self, holds: bool) { self.canonical &= holds; }

    fn skip(&mut self, n: u64) -> Answer<&'a [u8]> {
        if n > self.s.left() { return Err(self.s.taken()); }
        let octets = self.s.octets;
        let start = self.s.at;
        self.s.at += n as usize;
        Ok(&octets[start..self.s.at])
    }

    fn length(&mut self) -> Answer<u64> {
        let start = self.s.at;
        let n = length(&mut self.s)?;
        let least = if n < 128 { 1 } else { 1 + (71 - n.leading_zeros() as usize) / 8 };
        self.wants(self.s.at - start == least);
        Ok(n)
    }

    fn counted(&mut self, signed: bool) -> Answer<i128> {
        let n = self.length()?;
        let v = number(&mut self.s, n, signed)?;
        self.wants(n as usize == if signed { signed_octets(v) } else { unsigned_octets(v) });
        Ok(v)
    }

    fn open(&mut self, shape: &Shape) -> Answer<()> {
        let n = self.length()?;
        let end = self.s.taken() + n;
        let outer = self.s.set_end(end);
        self.value(shape)?;
        if self.s.taken() != end { return Err(self.s.taken()); }
        self.s.set_end(outer);
        Ok(())
    }

    fn enumerated(&mut self, items: &[i64], extensible: bool) -> Answer<()> {
        let first = self.s.one()?;
        let v = if first < 128 { first as i128 } else {
            let n = (first & 127) as u64;
            let v = number(&mut self.s, n, true)?;
            self.wants(!(0..128).contains(&v) && n as usize == signed_octets(v));
            v
        };
        let v = i64::try_from(v).map_err(|_| self.s.taken())?;
        if extensible || items.contains(&v) { Ok(()) } else { Err(self.s.taken()) }
    }

    fn bits(&mut self, size: Bounds) -> Answer<()> {
        let (packed, unused) = match fixed(size) {
            Some(count) => (self.skip((count + 7) / 8)?, (8 - count % 8) % 8),
            None => {
                let n = self.length()?;
                if n == 0 { return Err(self.s.taken()); }
                let unused = self.s.one()? as u64;
                let count = (8 * (n - 1)).checked_sub(unused).ok_or(self.s.taken())?;
                if unused > 7 || !allows(size, count) { return Err(self.s.taken()); }
                (self.skip(n - 1)?, unused)
            }
        };
        if let Some(last) = packed.last() { self.wants(last & ((1u8 << unused) - 1) == 0); }
        Ok(())
    }

    fn later(&mut self, additions: &[Field]) -> Answer<()> {
        let n = self.length()?;
        if n == 0 { return Err(self.s.taken()); }
        let unused = self.s.one()? as usize;
        let map = self.skip(n - 1)?;
        let bits = (map.len() * 8).checked_sub(unused).ok_or(self.s.taken())?;
        self.wants(unused < 8 && (bits..map.len() * 8).all(|i| !bit(map, i)));
        self.wants((0..bits).any(|i| bit(map, i)) && bits >= additions.len());
        self.wants(bits <= additions.len() || bit(map, bits - 1));
        for (i, addition) in additions.iter().enumerate() {
            if i < bits && bit(map, i) { self.open(&addition.shape)?; }
        }
        for i in additions.len()..bits {
            if bit(map, i) {
                if i > 65535 { return Err(self.s.taken()); }
                let n = self.length()?;
                self.skip(n)?;
            }
        }
        Ok(())
    }

    /// Where the component has a default, its octets aren't those of the default.
    fn component(&mut self, field: &Field) -> Answer<()> {
        let start = self.s.at;
        self.value(&field.shape)?;
        if let Need::Default(default) = &field.need {
            let mut same = Vec::new();
            write(&field.shape, default, &mut same);
            self.wants(self.s.octets[start..self.s.at] != same[..]);
        }
        Ok(())
    }

    fn sequence(&mut self, root: &[Field], additions: &Option<Vec<Field>>) -> Answer<()> {
        let first = additions.is_some() as usize;
        let count = first + root.iter().filter(|f| !matches!(f.need, Need::Must)).count();
        let bits = self.skip((count as u64 + 7) / 8)?;
        for j in count..bits.len() * 8 { if bit(bits, j) { return Err(self.s.taken()); } }
        let mut j = first;
        for field in root {
            let here = match field.need { Need::Must => true, _ => { j += 1; bit(bits, j - 1) } };
            if here { self.component(field)?; }
        }
        match additions {
            Some(additions) if bit(bits, 0) => self.later(additions),
            _ => Ok(()),
        }
    }

    fn choice(&mut self, root: &[Alt], additions: &Option<Vec<Alt>>) -> Answer<()> {
        let (class, n) = tag(&mut self.s)?;
        for alt in root { if class == 2 && alt.tag == n { return self.value(&alt.shape); } }
        let Some(additions) = additions else { return Err(self.s.taken()) };
        for alt in additions { if class == 2 && alt.tag == n { return self.open(&alt.shape); } }
        let count = self.length()?;
        self.skip(count)?;
        Ok(())
    }

    fn value(&mut self, shape: &Shape) -> Answer<()> {
        match shape {
            Shape::Boolean => { let octet = self.s.one()?; self.wants(octet == 0 || octet == 255); }
            Shape::Null => {}
            Shape::Integer(low, high) => {
                let v = match form(*low, *high) {
                    Form::Fixed(n, signed) => number(&mut self.s, n as u64, signed)?,
                    Form::Counted(signed) => self.counted(signed)?,
                };
                if low.map_or(false, |low| v < low) || high.map_or(false, |high| v > high) { return Err(self.s.taken()); }
            }
            Shape::Enumerated(items, extensible) => self.enumerated(items, *extensible)?,
            Shape::BitString(size) => self.bits(*size)?,
            Shape::OctetString(size) => {
                let n = match fixed(*size) { Some(n) => n, None => self.length()? };
                if !allows(*size, n) { return Err(self.s.taken()); }
                self.skip(n)?;
            }
            Shape::Utf8(size) => {
                let n = self.length()?;
                let text = std::str::from_utf8(self.skip(n)?).map_err(|_| self.s.taken())?;
                if !allows(*size, text.chars().count() as u64) { return Err(self.s.taken()); }
            }
            Shape::Sequence(root, additions) => self.sequence(root, additions)?,
            Shape::SequenceOf(size, item) => {
                let n = self.counted(false)? as u128;
                if n > self.s.left() as u128 || !allows(*size, n as u64) { return Err(self.s.taken()); }
                for _ in 0..n { self.value(item)?; }
            }
            Shape::Choice(root, additions) => self.choice(root, additions)?,
        }
        Ok(())
    }
}

/// How many octets the encoding at the front has, and whether it is canonical.
fn check(shape: &Shape, octets: &[u8]) -> Answer<(u64, bool)> {
    let mut check = Check { s: Slice { octets, at: 0, end: octets.len() }, canonical: true };
    check.value(shape)?;
    Ok((check.s.taken(), check.canonical))
}

// ---------- the types that are measured ----------

fn must(name: &str, shape: Shape) -> Field { Field { name: name.into(), shape, need: Need::Must } }
fn may(name: &str, shape: Shape) -> Field { Field { name: name.into(), shape, need: Need::May } }
fn int(low: i128, high: i128) -> Shape { Shape::Integer(Some(low), Some(high)) }
fn natural() -> Shape { Shape::Integer(Some(0), None) }
fn octet_string(n: u64) -> Shape { Shape::OctetString((n, Some(n))) }
fn up_to(low: u64, high: u64) -> Shape { Shape::OctetString((low, Some(high))) }
fn any_octets() -> Shape { Shape::OctetString((0, None)) }
fn list(shape: Shape) -> Shape { Shape::SequenceOf((0, None), Box::new(shape)) }
fn sequence(root: Vec<Field>) -> Shape { Shape::Sequence(root, None) }
fn alts(first: u32, shapes: Vec<(&str, Shape)>) -> Vec<Alt> {
    shapes.into_iter().zip(first..).map(|((name, shape), tag)| Alt { name: name.into(), tag, shape }).collect()
}
fn choice(shapes: Vec<(&str, Shape)>) -> Shape { Shape::Choice(alts(0, shapes), None) }
fn choice_more(shapes: Vec<(&str, Shape)>, more: Vec<(&str, Shape)>) -> Shape {
    let n = shapes.len() as u32;
    Shape::Choice(alts(0, shapes), Some(alts(n, more)))
}

fn sequences() -> Shape {
    let small = sequence(vec![must("x", int(0, 255)), must("y", int(-2147483648, 2147483647)), must("z", octet_string(4)), may("w", natural())]);
    sequence(vec![must("a", int(0, 65535)), must("b", Shape::Integer(None, None)), must("c", any_octets()), may("d", natural()), must("e", list(small))])
}

fn nested(depth: u32) -> Shape {
    let inner = if depth > 1 { nested(depth - 1) } else { list(Shape::Boolean) };
    Shape::Sequence(vec![], Some(vec![may("a", inner)]))
}

fn curve_point(n: u64) -> Shape {
    let whole = sequence(vec![must("x", octet_string(n)), must("y", octet_string(n))]);
    choice(vec![("x-only", octet_string(n)), ("fill", Shape::Null), ("compressed-y-0", octet_string(n)), ("compressed-y-1", octet_string(n)), ("uncompressed", whole)])
}

fn region() -> Shape {
    let place = || sequence(vec![must("latitude", int(-900000000, 900000001)), must("longitude", int(-1799999999, 1800000001))]);
    let short = || int(0, 65535);
    let circular = sequence(vec![must("center", place()), must("radius", short())]);
    let rectangular = sequence(vec![must("northWest", place()), must("southEast", place())]);
    let polygonal = Shape::SequenceOf((3, None), Box::new(place()));
    let regions = sequence(vec![must("countryOnly", short()), must("regions", list(int(0, 255)))]);
    let sub = sequence(vec![must("region", int(0, 255)), must("subregions", list(short()))]);
    let subregions = sequence(vec![must("country", short()), must("regionAndSubregions", list(sub))]);
    let identified = choice_more(vec![("countryOnly", short()), ("countryAndRegions", regions), ("countryAndSubregions", subregions)], vec![]);
    choice_more(vec![("circularRegion", circular), ("rectangularRegion", list(rectangular)), ("polygonalRegion", polygonal), ("identifiedRegion", list(identified))], vec![])
}

fn to_be_signed() -> Shape {
    let short = || int(0, 65535);
    let duration = choice(["microseconds", "milliseconds", "seconds", "minutes", "hours", "sixtyHours", "years"].into_iter().map(|name| (name, short())).collect());
    let linkage = sequence(vec![must("iCert", short()), must("linkage-value", octet_string(9)), may("group-linkage-value", sequence(vec![must("jValue", octet_string(4)), must("value", octet_string(9))]))]);
    let id = choice_more(vec![("linkageData", linkage), ("name", Shape::Utf8((0, Some(255)))), ("binaryId", up_to(1, 64)), ("none", Shape::Null)], vec![]);
    let ssp = choice_more(vec![("opaque", any_octets())], vec![("bitmapSsp", up_to(0, 31))]);
    let permission = sequence(vec![must("psid", natural()), may("ssp", ssp)]);
    let bitmap = sequence(vec![must("sspValue", up_to(1, 32)), must("sspBitmask", up_to(1, 32))]);
    let ssp_range = choice_more(vec![("opaque", list(any_octets())), ("all", Shape::Null)], vec![("bitmapSspRange", bitmap)]);
    let range = sequence(vec![must("psid", natural()), may("sspRange", ssp_range)]);
    let subject = choice_more(vec![("explicit", list(range)), ("all", Shape::Null)], vec![]);
    let with_default = |name: &str, shape, value| Field { name: name.into(), shape, need: Need::Default(value) };
    let whole = || Shape::Integer(None, None);
    let group = sequence(vec![must("subjectPermissions", subject), with_default("minChainLength", whole(), Value::Int(1)), with_default("chainLengthRange", whole(), Value::Int(0)), with_default("eeType", Shape::BitString((8, Some(8))), Value::Bits(vec![128], 8))]);
    let encryption = choice_more(vec![("eciesNistP256", curve_point(32)), ("eciesBrainpoolP256r1", curve_point(32))], vec![]);
    let encryption_key = sequence(vec![must("supportedSymmAlg", Shape::Enumerated(vec![0], true)), must("publicKey", encryption)]);
    let verification = choice_more(vec![("ecdsaNistP256", curve_point(32)), ("ecdsaBrainpoolP256r1", curve_point(32))], vec![("ecdsaBrainpoolP384r1", curve_point(48))]);
    let indicator = choice_more(vec![("verificationKey", verification), ("reconstructionValue", curve_point(32))], vec![]);
    let root = vec![
        must("id", id), must("cracaId", octet_string(3)), must("crlSeries", short()),
        must("validityPeriod", sequence(vec![must("start", int(0, 4294967295)), must("duration", duration)])),
        may("region", region()), may("assuranceLevel", octet_string(1)), may("appPermissions", list(permission)),
        may("certIssuePermissions", list(group.clone())), may("certRequestPermissions", list(group)),
        may("canRequestRollover", Shape::Null), may("encryptionKey", encryption_key), must("verifyKeyIndicator", indicator),
    ];
    Shape::Sequence(root, Some(vec![]))
}

fn signature() -> Shape {
    let p256 = || sequence(vec![must("rSig", curve_point(32)), must("sSig", octet_string(32))]);
    let p384 = sequence(vec![must("rSig", curve_point(48)), must("sSig", octet_string(48))]);
    choice_more(vec![("ecdsaNistP256Signature", p256()), ("ecdsaBrainpoolP256r1Signature", p256())], vec![("ecdsaBrainpoolP384r1Signature", p384)])
}

fn certificate() -> Shape {
    let issuer = choice_more(vec![("sha256AndDigest", octet_string(8)), ("self", Shape::Enumerated(vec![0, 1], true))], vec![("sha384AndDigest", octet_string(8))]);
    sequence(vec![must("version", int(3, 3)), must("type", Shape::Enumerated(vec![0, 1], true)), must("issuer", issuer), must("toBeSigned", to_be_signed()), may("signature", signature())])
}

fn header_info() -> Shape {
    let whole = |high: u64| int(0, high as i128);
    let location = sequence(vec![must("latitude", int(-900000000, 900000001)), must("longitude", int(-1799999999, 1800000001)), must("elevation", whole(65535))]);
    let missing = Shape::Sequence(vec![must("cracaId", octet_string(3)), must("crlSeries", whole(65535))], Some(vec![]));
    let public = choice_more(vec![("eciesNistP256", curve_point(32)), ("eciesBrainpoolP256r1", curve_point(32))], vec![]);
    let public = sequence(vec![must("supportedSymmAlg", Shape::Enumerated(vec![0], true)), must("publicKey", public)]);
    let key = choice(vec![("public", public), ("symmetric", choice_more(vec![("aes128Ccm", octet_string(16))], vec![]))]);
    let root = vec![
        must("psid", natural()), may("generationTime", whole(u64::MAX)), may("expiryTime", whole(u64::MAX)), may("generationLocation", location),
        may("p2pcdLearningRequest", octet_string(3)), may("missingCrlIdentifier", missing), may("encryptionKey", key),
    ];
    Shape::Sequence(root, Some(vec![may("inlineP2pcdRequest", list(octet_string(3))), may("requestedCertificate", certificate())]))
}

/// A message that holds no signed one, without an extension marker.
fn innermost() -> Shape {
    let tagged = |name: &str, tag, shape| Alt { name: name.into(), tag, shape };
    let root = vec![tagged("unsecuredData", 0, any_octets()), tagged("encryptedData", 2, encrypted_data()), tagged("signedCertificateRequest", 3, any_octets())];
    sequence(vec![must("protocolVersion", int(3, 3)), must("content", Shape::Choice(root, None))])
}

fn signed_data(levels: u32) -> Shape {
    let inner = if levels > 1 { message(levels - 1) } else { innermost() };
    let hashed = choice_more(vec![("sha256HashedData", octet_string(32))], vec![]);
    let payload = Shape::Sequence(vec![may("data", inner), may("extDataHash", hashed)], Some(vec![]));
    let signed = sequence(vec![must("payload", payload), must("headerInfo", header_info())]);
    let signer = choice_more(vec![("digest", octet_string(8)), ("certificate", list(certificate())), ("self", Shape::Null)], vec![]);
    sequence(vec![must("hashId", Shape::Enumerated(vec![0, 1], true)), must("tbsData", signed), must("signer", signer), must("signature", signature())])
}

fn encrypted_data() -> Shape {
    let cipher = || choice_more(vec![("aes128ccm", sequence(vec![must("nonce", octet_string(12)), must("ccmCiphertext", any_octets())]))], vec![]);
    let ecies = || sequence(vec![must("v", curve_point(32)), must("c", octet_string(16)), must("t", octet_string(16))]);
    let key = || choice_more(vec![("eciesNistP256", ecies()), ("eciesBrainpoolP256r1", ecies())], vec![]);
    let of = |key| sequence(vec![must("recipientId", octet_string(8)), must("encKey", key)]);
    let recipient = choice(vec![("pskRecipInfo", octet_string(8)), ("symmRecipInfo", of(cipher())), ("certRecipInfo", of(key())), ("signedDataRecipInfo", of(key())), ("rekRecipInfo", of(key()))]);
    sequence(vec![must("recipients", list(recipient)), must("ciphertext", cipher())])
}

/// A message that may hold so many levels of signed ones.
fn message(levels: u32) -> Shape {
    let content = choice_more(vec![("unsecuredData", any_octets()), ("signedData", signed_data(levels)), ("encryptedData", encrypted_data()), ("signedCertificateRequest", any_octets())], vec![]);
    sequence(vec![must("protocolVersion", int(3, 3)), must("content", content)])
}

fn shape_of(name: &str) -> Shape {
    match name {
        "Sequences" => sequences(),
        "Octets" => any_octets(),
        "Booleans" => list(Shape::Boolean),
        "Certificate" => certificate(),
        "Ieee1609Dot2Data" => message(4),
        _ => nested(name.trim_start_matches("Nested").parse().expect("a type that is measured")),
    }
}

// ---------- measuring ----------

fn save(folder: &str, name: &str, shape: &Shape, value: &Value) {
    let mut octets = Vec::new();
    write(shape, value, &mut octets);
    assert!(read(shape, &mut Slice { octets: &octets, at: 0, end: octets.len() }).as_ref() == Ok(value));
    assert!(check(shape, &octets) == Ok((octets.len() as u64, true)));
    std::fs::write(format!("{folder}/{name}"), octets).unwrap();
}

/// A value of `Sequences`, with so many small SEQUENCEs.
fn some_sequences(count: usize, random: &mut impl FnMut() -> u64) -> Value {
    let of = |places: Vec<Option<Value>>| Value::Seq { root: places, added: vec![], unknown: vec![] };
    let c = (0..40).map(|_| random() as u8).collect();
    let e = (0..count).map(|i| {
        let w = if i % 2 == 0 { Some(Value::Int((random() >> (random() % 60)) as i128)) } else { None };
        let z = (random() as u32).to_be_bytes().to_vec();
        of(vec![Some(Value::Int(random() as u8 as i128)), Some(Value::Int(random() as i32 as i128)), Some(Value::Octets(z)), w])
    }).collect();
    of(vec![Some(Value::Int(4711)), Some(Value::Int(-123456789012345)), Some(Value::Octets(c)), Some(Value::Int(1 << 40)), Some(Value::List(e))])
}

fn files(folder: &str) {
    let mut seed = 12345u64;
    let mut random = || { seed ^= seed << 13; seed ^= seed >> 7; seed ^= seed << 17; seed };
    save(folder, "sequences.oer", &sequences(), &some_sequences(1000, &mut random));
    for power in 16..=22 {
        let octets = (0..1usize << power).map(|_| random() as u8).collect();
        save(folder, &format!("octets-{}.oer", 1 << power), &any_octets(), &Value::Octets(octets));
    }
    save(folder, "booleans.oer", &list(Shape::Boolean), &Value::List((0..1_000_000).map(|i| Value::Bool(i % 3 == 0)).collect()));
    for power in [10, 12, 14] {
        let mut value = Value::List((0..1usize << power).map(|_| Value::Bool(random() % 2 == 0)).collect());
        for depth in 1..=8 {
            value = Value::Seq { root: vec![], added: vec![Some(value)], unknown: vec![] };
            save(folder, &format!("nested{depth}-{}.oer", 1 << power), &nested(depth), &value);
        }
    }
    for count in [250, 500, 1000, 2000, 4000, 8000] {
        save(folder, &format!("sequences-{count}.oer"), &sequences(), &some_sequences(count, &mut random));
    }
}

fn turn(task: &str, shape: &Shape, octets: &[u8], value: &Value) -> u64 {
    let pull = |most| Pull { reader: Pieces { octets, most }, taken: 0, end: u64::MAX };
    match task {
        "read" => read(shape, &mut Slice { octets, at: 0, end: octets.len() }).is_ok() as u64,
        "read-octets" => read(shape, &mut pull(1)).is_ok() as u64,
        "read-blocks" => read(shape, &mut pull(4096)).is_ok() as u64,
        "measure" => { let mut count = Count(0); write(shape, value, &mut count); count.0 }
        "write" => { let mut written = Vec::new(); write(shape, value, &mut written); written.len() as u64 }
        "rewrite" => {
            let value = read(shape, &mut Slice { octets, at: 0, end: octets.len() }).unwrap();
            let mut written = Vec::new();
            write(shape, &value, &mut written);
            written.len() as u64
        }
        "check" => check(shape, octets).map_or(0, |(count, canonical)| 2 * count + canonical as u64),
        _ => panic!("no such task"),
    }
}

fn main() {
    let words: Vec<String> = std::env::args().collect();
    if words[1] == "files" { return files(&words[2]); }
    let shape = shape_of(&words[3]);
    let octets = std::fs::read(&words[4]).unwrap();
    let value = read(&shape, &mut Slice { octets: &octets, at: 0, end: octets.len() }).unwrap();
    let mut sum = 0u64;
    for _ in 0..words[2].parse::<u32>().unwrap() {
        sum = sum.wrapping_add(turn(&words[1], std::hint::black_box(&shape), std::hint::black_box(&octets), &value));
    }
    println!("{sum}");
}
