//! What tests/independent.rs shows of images, in the forms of `tiny_answers` and `board_answers`,
//! which tests/README.md has.
//!
//!     answers tiny | board < records

#[path = "independent.rs"]
mod independent;

use independent::{judge_board, judge_tiny, major_text, name_tiny, text};
use independent::{Board, BoardFields, Field, Identity, Judged, Reference, Refusal, ShownBoard};
use independent::{ShownTiny, Tiny, TinyFields, Value};
use std::fmt::{self, Display, Formatter};
use std::io::{self, Read, Write};

/// Bytes in hexadecimal.
struct Hex<'a>(&'a [u8]);

impl Display for Hex<'_> {
    fn fmt(&self, f: &mut Formatter) -> fmt::Result {
        self.0.iter().try_for_each(|byte| write!(f, "{byte:02X}"))
    }
}

/// A refusal, or what was answered.
struct Said<T>(Judged<T>);

impl<T: Display> Display for Said<T> {
    fn fmt(&self, f: &mut Formatter) -> fmt::Result {
        match &self.0 {
            Ok(shown) => shown.fmt(f),
            Err(Refusal(answer)) => write!(f, "refused {} {}", answer >> 32, answer & 0xFFFF_FFFF),
        }
    }
}

/// Asks an image that may be refused.
fn ask<I, T>(judged: &Judged<I>, call: impl Fn(&I) -> Judged<T>) -> Said<T> {
    Said(judged.as_ref().map_err(|refusal| *refusal).and_then(call))
}

/// What a step of a walk shows: an item, as asked by its number, or that none is left.
enum Step<T> {
    Shown(T),
    NoneLeft,
}

impl<T: Display> Display for Step<T> {
    fn fmt(&self, f: &mut Formatter) -> fmt::Result {
        match self {
            Step::Shown(item) => item.fmt(f),
            Step::NoneLeft => f.write_str("none left"),
        }
    }
}

/// Step i of a walk over as many items: "step i (from 0) shows item i as asked by number for every i below
/// the count, and the step at the count says that none is left".
fn step<T>(i: usize, count: usize, item: impl Fn() -> Judged<T>) -> Judged<Step<T>> {
    if i < count { item().map(Step::Shown) } else { Ok(Step::NoneLeft) }
}

/// Numbers far past those of any item, string or record: the first of more than 32 bits, and the last of 64.
const FAR: [usize; 2] = [1 << 32, usize::MAX];

// ---- tiny images ----

struct Referred<'a>(Reference<'a>);

impl Display for Referred<'_> {
    fn fmt(&self, f: &mut Formatter) -> fmt::Result {
        match self.0 {
            Some(string) => write!(f, "text {}", Hex(&text(string))),
            None => f.write_str("undecodable"),
        }
    }
}

impl Display for ShownTiny<'_> {
    fn fmt(&self, f: &mut Formatter) -> fmt::Result {
        write!(f, "tag {:02X} place {} length {} ", self.tag, self.place, self.length)?;
        match &self.fields {
            Some(fields) => fields.fmt(f),
            None => f.write_str("unknown"),
        }
    }
}

impl Display for TinyFields<'_> {
    fn fmt(&self, f: &mut Formatter) -> fmt::Result {
        match self {
            TinyFields::Pool(count, place, length) => write!(f, "strings {count} data {place} {length}"),
            TinyFields::Serial(serial) => write!(f, "serial {}", Referred(*serial)),
            TinyFields::Flags(flags) => write!(f, "flags {flags:02X}"),
            TinyFields::Address(address) => write!(f, "address {}", Hex(address)),
            TinyFields::Identity(identity) => identity.fmt(f),
        }
    }
}

impl Display for Identity<'_> {
    fn fmt(&self, f: &mut Formatter) -> fmt::Result {
        write!(f, "serial {} part {}", Referred(self.serial), Referred(self.part))?;
        write!(f, " major {:02X} shown {}", self.major, Hex(&major_text(self.major)))?;
        write!(f, " minor {} characters {}", self.minor, Hex(&self.characters))?;
        self.batch.map_or(Ok(()), |batch| write!(f, " batch {batch}"))
    }
}

fn answer_tiny(out: &mut impl Write, image: &[u8], kinds: u32) -> io::Result<()> {
    let judged = judge_tiny(image, kinds);
    let (items, strings) = judged.as_ref().map_or((0, 0), |tiny| (tiny.count, tiny.string_count()));
    writeln!(out, "{}", ask(&judged, |tiny: &Tiny| Ok(format!("accepted {}", tiny.count))))?;
    for i in (0..=items).chain(FAR) {
        writeln!(out, "item {i} {}", ask(&judged, |tiny| tiny.item(i)))?;
        writeln!(out, "step {i} {}", ask(&judged, |tiny| step(i, tiny.count, || tiny.item(i))))?;
    }
    for i in (0..=strings + 1).chain(FAR) {
        writeln!(out, "string {i} {}", ask(&judged, |tiny| tiny.string(i).map(Referred)))?;
    }
    for size in [0, 3, 4, 255] {
        let mut block = [0xAA; 255];
        let length = name_tiny(image, kinds, &mut block[..size]);
        let length = Said(length.map(|length| format!("length {length}")));
        writeln!(out, "name {size} {length} {}", Hex(&block[..size.max(8)]))?;
    }
    Ok(())
}

// ---- board images ----

impl Display for ShownBoard<'_> {
    fn fmt(&self, f: &mut Formatter) -> fmt::Result {
        write!(f, "kind {} place {} length {}", Hex(&self.signature), self.place, self.length)?;
        match &self.fields {
            Some(fields) => fields.fmt(f),
            None => f.write_str(" unknown"),
        }
    }
}

impl Display for BoardFields<'_> {
    fn fmt(&self, f: &mut Formatter) -> fmt::Result {
        write!(f, " major {} minor {} Length {}", self.major, self.minor, self.length)?;
        Fields(&self.rows).fmt(f)?;
        self.data.map_or(Ok(()), |(place, length)| write!(f, " data {place} {length}"))
    }
}

struct Fields<T>(T);

impl<'a, T: AsRef<[Field<'a>]>> Display for Fields<T> {
    fn fmt(&self, f: &mut Formatter) -> fmt::Result {
        self.0.as_ref().iter().try_for_each(|(label, value)| match value {
            Value::Number(number) => write!(f, " {label} {number}"),
            Value::Bytes(bytes) => write!(f, " {label} {}", Hex(bytes)),
        })
    }
}

fn answer_board(out: &mut impl Write, image: &[u8], kinds: u32) -> io::Result<()> {
    let judged = judge_board(image, kinds);
    let count = judged.as_ref().map_or(0, |board| board.count);
    writeln!(out, "{}", ask(&judged, |board: &Board| Ok(format!("accepted {}", board.count))))?;
    for i in (0..count.min(24)).chain([count]).chain(FAR) {
        writeln!(out, "item {i} {}", ask(&judged, |board| board.item(i)))?;
        writeln!(out, "step {i} {}", ask(&judged, |board| step(i, board.count, || board.item(i))))?;
        answer_records(out, &format!("gpio {i}"), |r| ask(&judged, |board| board.gpio_record(i, r)))?;
    }
    answer_records(out, "map", |r| ask(&judged, |board| board.map_record(r)))
}

/// Records from 0 to the first that is refused, and at numbers far past it.
fn answer_records<'a>(
    out: &mut impl Write, call: &str, record: impl Fn(usize) -> Said<Vec<Field<'a>>>,
) -> io::Result<()> {
    let mut answer = |r: usize| match record(r).0 {
        Ok(fields) => writeln!(out, "{call} {r}{}", Fields(fields)).and(Ok(true)),
        Err(refusal) => writeln!(out, "{call} {r} {}", Said::<&str>(Err(refusal))).and(Ok(false)),
    };
    let mut r = 0;
    while answer(r)? {
        r += 1;
    }
    FAR.into_iter().try_for_each(|r| answer(r).and(Ok(())))
}

// ---- the records ----

/// Takes a number of so many bytes, low byte first.
fn number(input: &mut &[u8], bytes: usize) -> Option<u32> {
    let (number, rest) = input.split_at_checked(bytes)?;
    *input = rest;
    Some(number.iter().rev().fold(0, |number, &byte| number << 8 | u32::from(byte)))
}

/// Takes a record whose list and length have so many bytes: the list and the image.
fn record<'a>(input: &mut &'a [u8], list: usize, length: usize) -> Option<(u32, &'a [u8])> {
    let kinds = number(input, list)?;
    let length = number(input, length)? as usize;
    let (image, rest) = input.split_at_checked(length)?;
    *input = rest;
    Some((kinds, image))
}

fn main() -> io::Result<()> {
    let mut out = io::BufWriter::new(io::stdout().lock());
    let mut input = Vec::new();
    let (room, list, length) = match std::env::args().nth(1).as_deref() {
        Some("tiny") => (65_536, 1, 2),
        Some("board") => (262_144, 4, 4),
        _ => return Err(io::Error::other("usage: answers tiny | board, records on standard input")),
    };
    io::stdin().take(room).read_to_end(&mut input)?;
    let mut rest = &input[..];
    while let Some((kinds, image)) = record(&mut rest, list, length) {
        writeln!(out, "list {kinds}")?;
        match list {
            1 => answer_tiny(&mut out, image, kinds)?,
            _ => answer_board(&mut out, image, kinds)?,
        }
    }
    out.flush()
}
