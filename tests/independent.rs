//! A reader of tiny (001, Kontron) and board (000, Intel) EEPROM images, written from the papers
//! alone. "Rule n" is refusal number n of the build paper, 01-scope.md; rules 20 to 22 are as request
//! R-6 in 02-change-requests.md has them, and rule 34 is that of R-2 there; rows are those of 000.
//! The header is `$Eeprom$`, its Length 20h or 30h.

use std::hint::black_box;
use std::mem::MaybeUninit;

/// A refusal as it is answered: its number from bit 32 on, its place below.
#[derive(Clone, Copy, Debug, PartialEq)]
pub struct Refusal(pub u64);

pub type Judged<T> = Result<T, Refusal>;

fn refusal(number: u8, place: usize) -> Refusal {
    Refusal(u64::from(number) << 32 | place as u64)
}

/// Refuses if something is broken, so many bytes after a place.
fn hold(number: u8, place: usize, broken: Option<usize>) -> Judged<()> {
    broken.map_or(Ok(()), |i| Err(refusal(number, place + i)))
}

/// The refusal to give of those met so far: the lowest number, within it the smallest place.
struct Least(Judged<()>);

impl Least {
    fn note(&mut self, number: u8, place: usize, broken: Option<usize>) {
        if let Err(new) = hold(number, place, broken) {
            self.0 = Err(self.0.map_or_else(|old| Refusal(old.0.min(new.0)), |()| new));
        }
    }
}

// ---- check numbers ----

static CRC8: [u8; 256] = crc8_table();
static CRC32: [[u32; 256]; 16] = crc32_tables();

/// x^8 + x^2 + x + 1, highest bit first.
const fn crc8_table() -> [u8; 256] {
    let mut table = [0; 256];
    let mut i = 0;
    while i < 8 * 256 {
        let crc = if i % 8 == 0 { (i / 8) as u8 } else { table[i / 8] };
        table[i / 8] = crc << 1 ^ if crc & 0x80 != 0 { 0x07 } else { 0 };
        i += 1;
    }
    table
}

/// IEEE 802.3, reflected; table k is for a byte with k more bytes after it in its block.
const fn crc32_tables() -> [[u32; 256]; 16] {
    let mut tables = [[0; 256]; 16];
    let mut i = 0;
    while i < 8 * 256 {
        let crc = if i % 8 == 0 { (i / 8) as u32 } else { tables[0][i / 8] };
        tables[0][i / 8] = crc >> 1 ^ if crc & 1 != 0 { 0xEDB8_8320 } else { 0 };
        i += 1;
    }
    i = 256;
    while i < 16 * 256 {
        let before = tables[i / 256 - 1][i % 256];
        tables[i / 256][i % 256] = before >> 8 ^ tables[0][(before & 0xFF) as usize];
        i += 1;
    }
    tables
}

fn crc8(bytes: &[u8]) -> u8 {
    bytes.iter().fold(0, |crc, byte| CRC8[usize::from(crc ^ byte)])
}

/// One stretch of a CRC-32, without the inversions at start and end.
fn crc32(mut crc: u32, bytes: &[u8]) -> u32 {
    let (blocks, tail) = bytes.as_chunks::<16>();
    for block in blocks {
        let front = (crc ^ u32_at(block, 0)).to_le_bytes();
        crc = 0;
        for i in 0..16 {
            let byte = if i < 4 { front[i] } else { block[i] };
            crc ^= CRC32[15 - i][usize::from(byte)];
        }
    }
    tail.iter().fold(crc, |crc, byte| crc >> 8 ^ CRC32[0][usize::from(crc as u8 ^ byte)])
}

// ---- small pieces ----

fn u16_at<const N: usize>(bytes: &[u8; N], at: usize) -> u16 {
    u16::from_le_bytes([bytes[at], bytes[at + 1]])
}

fn u32_at<const N: usize>(bytes: &[u8; N], at: usize) -> u32 {
    u32::from_le_bytes([bytes[at], bytes[at + 1], bytes[at + 2], bytes[at + 3]])
}

fn nonzero(bytes: &[u8]) -> Option<usize> {
    bytes.iter().position(|&byte| byte != 0)
}

fn is_character(byte: u8) -> bool {
    matches!(byte, 0x20..=0x7E)
}

/// The first byte of the label at `at` with which it stops being the start of any good label.
fn label_break<const N: usize>(bytes: &[u8; N], at: usize) -> Option<usize> {
    let label = &bytes[at..at + 16];
    let text = label.iter().position(|&byte| !is_character(byte) || byte == b'$')?;
    match label[text] {
        b'$' => nonzero(&label[text + 1..]).map(|i| at + text + 1 + i),
        _ => Some(at + text),
    }
}

// ---- tiny image ----

/// The bit of each tag in the reader's list.
static TAG_BITS: [u32; 256] = {
    let (tags, mut bits, mut i) = ([0x01, 0x10, 0x11, 0x60, 0x61, 0x62, 0x80, 0x81], [0; 256], 0);
    while i < 8 {
        bits[tags[i]] = 1 << i;
        i += 1;
    }
    bits
};

fn tag_known(kinds: u32, tag: u8) -> bool {
    kinds & TAG_BITS[usize::from(tag)] != 0
}

#[derive(Clone, Copy)]
struct TinyItem<'a> {
    tag: u8,
    place: usize,
    /// Place of the first data byte.
    inside: usize,
    data: &'a [u8],
}

impl TinyItem<'_> {
    fn end(&self) -> usize {
        self.inside + self.data.len()
    }
}

/// The item at a place, if it and its length byte end within the body.
fn tiny_item(body: &[u8], place: usize) -> Option<TinyItem<'_>> {
    let (&tag, rest) = body.get(place..)?.split_first()?;
    let (length, inside, rest) = match tag >> 4 {
        0 => rest.split_first().map(|(&length, rest)| (length, place + 2, rest))?,
        n => (n, place + 1, rest),
    };
    Some(TinyItem { tag, place, inside, data: rest.get(..usize::from(length))? })
}

/// An accepted tiny image.
pub struct Tiny<'a> {
    /// The bytes before the check; the items start at 3.
    body: &'a [u8],
    kinds: u32,
    pub count: usize,
    /// The strings, empty without a pool; none at all if 01 is not on the list.
    pool: Option<&'a [u8]>,
}

/// What is shown of a tiny item: of one that is not known its kind, place and data length alone.
pub struct ShownTiny<'a> {
    pub tag: u8,
    pub place: usize,
    pub length: usize,
    pub fields: Option<TinyFields<'a>>,
}

pub enum TinyFields<'a> {
    /// The count of strings, and where the data are and how long.
    Pool(usize, usize, usize),
    Serial(Reference<'a>),
    Flags(u8),
    Address(&'a [u8]),
    Identity(Identity<'a>),
}

pub struct Identity<'a> {
    pub serial: Reference<'a>,
    pub part: Reference<'a>,
    pub major: u8,
    pub minor: u8,
    pub characters: [u8; 2],
    pub batch: Option<u16>,
}

/// A string as it lies in the pool, its end mark set; none if it is undecodable.
pub type Reference<'a> = Option<&'a [u8]>;

/// The strings of a pool.
fn strings(pool: &[u8]) -> impl Iterator<Item = &[u8]> {
    pool.split_inclusive(|byte| byte & 0x80 != 0)
}

/// The text of a string: its end mark cleared.
pub fn text(string: &[u8]) -> Vec<u8> {
    string.iter().map(|byte| byte & 0x7F).collect()
}

impl<'a> Tiny<'a> {
    fn items(&self) -> impl Iterator<Item = TinyItem<'a>> {
        let (body, mut at) = (self.body, 3);
        std::iter::from_fn(move || {
            let item = tiny_item(body, at)?;
            at = item.end();
            Some(item)
        })
    }

    /// The item of a number.
    pub fn item(&self, number: usize) -> Judged<ShownTiny<'a>> {
        self.items().nth(number).map(|item| self.show(item)).ok_or(refusal(42, 0))
    }

    /// How many strings there are in a listed pool.
    pub fn string_count(&self) -> usize {
        self.pool.map_or(0, |pool| strings(pool).count())
    }

    /// The string of a number; any is undecodable if 01 is not on the list.
    pub fn string(&self, number: usize) -> Judged<Reference<'a>> {
        let Some(pool) = self.pool else { return Ok(None) };
        strings(pool).nth(number).map(Some).ok_or(refusal(42, 0))
    }

    /// What an index of a known item stands for; rule 10 holds it below the string count.
    fn reference(&self, index: u8) -> Reference<'a> {
        self.pool.map(|pool| strings(pool).nth(index.into()).expect("rule 10"))
    }

    fn show(&self, item: TinyItem<'a>) -> ShownTiny<'a> {
        let known = tag_known(self.kinds, item.tag);
        ShownTiny {
            tag: item.tag,
            place: item.place,
            length: item.data.len(),
            fields: known.then(|| self.fields(item)),
        }
    }

    /// The fields of a known item.
    fn fields(&self, item: TinyItem<'a>) -> TinyFields<'a> {
        match (item.tag, item.data) {
            (0x01, data) => TinyFields::Pool(strings(data).count(), item.inside, data.len()),
            (0x10, &[index]) => TinyFields::Serial(self.reference(index)),
            (0x11, &[flags]) => TinyFields::Flags(flags),
            (0x60, address) => TinyFields::Address(address),
            (_, &[serial, part, major, minor, first, second, ref batch @ ..]) => {
                TinyFields::Identity(Identity {
                    serial: self.reference(serial),
                    part: self.reference(part),
                    major,
                    minor,
                    characters: [first, second],
                    batch: batch.first_chunk().map(|bytes| u16_at::<2>(bytes, 0)),
                })
            }
            _ => unreachable!("a tag says how many data bytes it has"),
        }
    }
}

pub fn judge_tiny(image: &[u8], kinds: u32) -> Judged<Tiny<'_>> {
    let body = tiny_frame(image)?;
    let listed = tag_known(kinds, 0x01);
    let (count, pool) = tiny_shape(body, listed)?;
    let mut strings = 0;
    if let Some(pool) = pool {
        hold(9, pool.inside, pool_break(pool.data))?;
        strings = pool.data.iter().filter(|&byte| byte & 0x80 != 0).count();
    }
    let pool = listed.then_some(pool.map_or(&[][..], |pool| pool.data));
    let tiny = Tiny { body, kinds, count, pool };
    tiny_contents(&tiny, strings)?;
    Ok(tiny)
}

/// Rules 1 to 5: the bytes before the check.
fn tiny_frame(image: &[u8]) -> Judged<&[u8]> {
    let &[magic, version, length, _] = image.first_chunk().ok_or(refusal(1, 0))?;
    if magic != 0x56 {
        return Err(refusal(2, 0));
    }
    if version != 2 {
        return Err(refusal(3, 1));
    }
    match image.get(..usize::from(length)) {
        Some(&[ref body @ .., check]) if length >= 4 => {
            hold(5, body.len(), (crc8(body) != check).then_some(0)).map(|()| body)
        }
        _ => Err(refusal(4, 2)),
    }
}

/// Rules 6 to 8: the count of items, and the pool if it is there and listed.
fn tiny_shape(body: &[u8], listed: bool) -> Judged<(usize, Option<TinyItem<'_>>)> {
    let (mut at, mut count, mut pool, mut least) = (3, 0, None, Least(Ok(())));
    while at < body.len() {
        let item = tiny_item(body, at).ok_or(refusal(6, at))?;
        least.note(7, at, (item.tag == 0x00).then_some(0));
        if item.tag == 0x01 && listed {
            least.note(8, at, (item.end() != body.len()).then_some(0));
            pool = Some(item);
        }
        count += 1;
        at = item.end();
    }
    least.0.map(|()| (count, pool))
}

/// Rule 9.
fn pool_break(pool: &[u8]) -> Option<usize> {
    let unmarked = pool.last().filter(|&byte| byte & 0x80 == 0).map(|_| pool.len() - 1);
    pool.iter().position(|byte| !is_character(byte & 0x7F)).or(unmarked)
}

/// Rules 10 and 11, of known items.
fn tiny_contents(tiny: &Tiny, strings: usize) -> Judged<()> {
    let mut least = Least(Ok(()));
    for item in tiny.items().filter(|item| tag_known(tiny.kinds, item.tag)) {
        let indexes = match item.tag {
            0x10 => 1,
            0x61 | 0x62 | 0x80 | 0x81 => 2,
            _ => continue,
        };
        if tiny.pool.is_some() {
            let mut indexes = item.data.iter().take(indexes);
            least.note(10, item.inside, indexes.position(|&index| usize::from(index) >= strings));
        }
        least.note(11, item.inside, identity_break(item.data));
    }
    least.0
}

/// Rule 11: the data of tags 61, 62, 80 and 81; that of tag 10 is too short to break it.
fn identity_break(data: &[u8]) -> Option<usize> {
    let &[_, _, major, minor, first, second, ref batch @ ..] = data else { return None };
    match batch.first_chunk().map(|bytes| u16_at::<2>(bytes, 0)) {
        _ if !matches!(major, 0..=0x63 | 0x80..=0x99) => Some(2),
        _ if minor > 99 => Some(3),
        _ if !is_character(first) || !is_character(second) => Some(4),
        Some(10_000..) => Some(6),
        _ => None,
    }
}

/// 00h to 63h as '00' to '99', 80h to 99h as '0A' to '0Z'.
pub fn major_text(major: u8) -> [u8; 2] {
    match major {
        0..=0x63 => [b'0' + major / 10, b'0' + major % 10],
        _ => [b'0', b'A'.wrapping_add(major & 0x7F)],
    }
}

/// The text of the only serial, end mark cleared, to the front of the buffer: rule 44, then 43.
pub fn name_tiny(image: &[u8], kinds: u32, buffer: &mut [u8]) -> Judged<usize> {
    let tiny = judge_tiny(image, kinds)?;
    let mut serials = tiny.items().filter(|item| item.tag == 0x10 && tag_known(kinds, 0x10));
    let (Some(serial), None, Some(pool)) = (serials.next(), serials.next(), tiny.pool) else {
        return Err(refusal(44, 0));
    };
    let mut strings = strings(pool);
    let text = serial.data.first().and_then(|&index| strings.nth(usize::from(index)));
    let text = text.ok_or(refusal(44, 0))?;
    let room = buffer.get_mut(..text.len()).ok_or(refusal(43, 0))?;
    for (to, from) in room.iter_mut().zip(text) {
        *to = from & 0x7F;
    }
    Ok(text.len())
}

/// Goes from item to item and shows each; the count of known ones.
fn walk_tiny(image: &[u8], kinds: u32) -> Judged<usize> {
    let tiny = judge_tiny(image, kinds)?;
    let shown = tiny.items().map(|item| black_box(tiny.show(item)));
    Ok(shown.filter(|item| item.fields.is_some()).count())
}

// ---- board image ----

const fn sign(text: &[u8; 8]) -> u64 {
    u64::from_le_bytes(*text)
}

const EEPROM: u64 = sign(b"$Eeprom$");
const MAP: u64 = sign(b"$EeprMap");
const BOARD: u64 = sign(b"$BrdInfo");
const PROM_SIG: u64 = sign(b"$PromSig");
const FPGA: u64 = sign(b"$FPGAnfo");
const GPIO: u64 = sign(b"$GpioDat");
const MEMORY: u64 = sign(b"$MemCnfg");
const MAC: u64 = sign(b"$MacInfo");

/// The structures of the reader's list, from bit 8 on.
const LISTED: [u64; 9] = [
    sign(b"$AcpiTbl"), FPGA, GPIO, sign(b"$HdCodec"), sign(b"$Logo$\0\0"), MEMORY, MAC,
    sign(b"$uCode$\0"), sign(b"$Video$\0"),
];

#[derive(Clone, Copy)]
struct Structure<'a> {
    place: usize,
    signature: u64,
    major: u16,
    minor: u16,
    /// As many as Length says, the head included.
    bytes: &'a [u8],
}

impl<'a> Structure<'a> {
    fn end(&self) -> usize {
        self.place + self.bytes.len()
    }

    /// The whole records after the fixed part.
    fn records<const SIZE: usize>(&self) -> &'a [[u8; SIZE]] {
        self.bytes.get(self.reserved().1..).map_or(&[], |data| data.as_chunks().0)
    }

    fn known(&self, kinds: u32) -> bool {
        let mut listed = LISTED.iter().zip(8..);
        matches!(self.signature, EEPROM | MAP | BOARD | PROM_SIG)
            || self.major == 1 && listed.any(|(&s, bit)| s == self.signature && kinds >> bit & 1 == 1)
    }

    /// Where the Reserved row of its table starts and ends; in a header of Length 20h it is empty.
    /// The fixed part ends there too.
    fn reserved(&self) -> (usize, usize) {
        match self.signature {
            EEPROM => (0x20, self.bytes.len()),
            MAC => (0x20, 0x30),
            MAP => (0x2D, 0x30),
            BOARD => (0x4D, 0x60),
            FPGA => (0x13, 0x20),
            MEMORY | PROM_SIG => (0x12, 0x20),
            _ => (0x10, 0x20),
        }
    }
}

/// The structure due at a place, unless rule 23 breaks there.
fn structure_at(area: &[u8], place: usize) -> Option<Structure<'_>> {
    let rest = area.get(place..)?;
    let head = rest.first_chunk::<16>()?;
    let length = u32_at(head, 0x0C) as usize;
    if head[0] != b'$' || length < 16 {
        return None;
    }
    let signature = u64::from(u32_at(head, 4)) << 32 | u64::from(u32_at(head, 0));
    let (major, minor) = (u16_at(head, 8), u16_at(head, 0x0A));
    Some(Structure { place, signature, major, minor, bytes: rest.get(..length)? })
}

/// The structures of an area that holds rule 23.
fn structures(area: &[u8]) -> impl Iterator<Item = Structure<'_>> {
    let mut at = 0;
    std::iter::from_fn(move || {
        let structure = structure_at(area, at)?;
        at = structure.end().next_multiple_of(16);
        Some(structure)
    })
}

/// An accepted board image: its first StructLen bytes, and its `$BrdInfo`.
pub struct Board<'a> {
    area: &'a [u8],
    kinds: u32,
    pub count: usize,
    info: &'a [u8],
}

/// What is shown of a structure: of one that is not known its kind, place and data length alone.
#[derive(Debug, PartialEq)]
pub struct ShownBoard<'a> {
    pub signature: [u8; 8],
    pub place: usize,
    pub length: usize,
    pub fields: Option<BoardFields<'a>>,
}

#[derive(Debug, PartialEq)]
pub struct BoardFields<'a> {
    pub major: u16,
    pub minor: u16,
    /// Length, the head included.
    pub length: usize,
    pub rows: Vec<Field<'a>>,
    /// Where what follows the fields is and how long, if the table has such a row.
    pub data: Option<(usize, usize)>,
}

/// A field with the label that its table gives it.
pub type Field<'a> = (&'static str, Value<'a>);

#[derive(Debug, PartialEq)]
pub enum Value<'a> {
    Number(u32),
    Bytes(&'a [u8]),
}

/// A row of a table that is shown: its label, offset and length.
type Row = (&'static str, usize, usize);

const MAP_RECORD: [Row; 4] =
    [("MapLabel", 0x00, 16), ("Length", 0x10, 4), ("Offset", 0x14, 4), ("Address", 0x18, 1)];

const GPIO_RECORD: [Row; 7] = [
    ("GpioLabel", 0x00, 16), ("Length", 0x10, 4), ("Offset", 0x14, 4), ("AndData", 0x18, 4),
    ("OrData", 0x1C, 4), ("DataSize", 0x20, 1), ("DataType", 0x21, 1),
];

/// The rows of a structure's table between the generic head and Reserved, but Crc32.
fn rows(signature: u64) -> &'static [Row] {
    match signature {
        EEPROM => &[("StructLen", 0x10, 4), ("CrcLength", 0x18, 4), ("Version", 0x1C, 4)],
        MAP => &[
            ("PartLabel", 0x10, 16), ("BlkLength", 0x20, 4), ("PageSize", 0x24, 2), ("PartSize", 0x26, 4),
            ("BusNumber", 0x2A, 1), ("Master", 0x2B, 1), ("Speed", 0x2C, 1),
        ],
        BOARD => &[
            ("ManuName", 0x10, 16), ("BrdName", 0x20, 16), ("BrdSerial", 0x30, 16), ("BoardId", 0x40, 4),
            ("FabId", 0x44, 4), ("EcId", 0x48, 4), ("BoardType", 0x4C, 1),
        ],
        PROM_SIG => &[("HashType", 0x10, 2)],
        FPGA => &[("DataType", 0x10, 1), ("DevNum", 0x11, 1), ("FuncNum", 0x12, 1)],
        MEMORY => &[("SpdSlot", 0x10, 2)],
        MAC => &[("NicId", 0x10, 8), ("MacAddr", 0x18, 6), ("NicNum", 0x1E, 2)],
        _ => &[],
    }
}

/// The fields of a table. One, two or four bytes are a number; labels, names and the NIC's address
/// are bytes.
fn fields<'a>(rows: &'static [Row], bytes: &'a [u8]) -> Vec<Field<'a>> {
    let field = |&(label, offset, length): &Row| {
        let bytes = &bytes[offset..offset + length];
        let number = bytes.iter().rev().fold(0, |number, &byte| number << 8 | u32::from(byte));
        (label, if matches!(length, 1 | 2 | 4) { Value::Number(number) } else { Value::Bytes(bytes) })
    };
    rows.iter().map(field).collect()
}

impl<'a> Board<'a> {
    /// The structure of a number.
    pub fn item(&self, number: usize) -> Judged<ShownBoard<'a>> {
        structures(self.area).nth(number).map(|structure| self.show(structure)).ok_or(refusal(42, 0))
    }

    /// The map record of a number.
    pub fn map_record(&self, number: usize) -> Judged<Vec<Field<'a>>> {
        let map = structures(self.area).find(|structure| structure.signature == MAP);
        let records = map.map_or(&[][..], |map| map.records::<0x20>());
        records.get(number).map(|record| fields(&MAP_RECORD, record)).ok_or(refusal(42, 0))
    }

    /// The GPIO record of a number in the structure of a number; one that is not known, or no GPIO
    /// data, has none.
    pub fn gpio_record(&self, item: usize, number: usize) -> Judged<Vec<Field<'a>>> {
        let gpio = structures(self.area).nth(item);
        let gpio = gpio.filter(|gpio| gpio.signature == GPIO && gpio.known(self.kinds));
        let records = gpio.map_or(&[][..], |gpio| gpio.records::<0x30>());
        records.get(number).map(|record| fields(&GPIO_RECORD, record)).ok_or(refusal(42, 0))
    }

    /// Of a known one the fields of its table but reserved bytes and Crc32; what follows (records
    /// too) by place and length.
    fn show(&self, structure: Structure<'a>) -> ShownBoard<'a> {
        let Structure { place, signature, major, minor, bytes } = structure;
        let (length, start) = (bytes.len(), structure.reserved().1);
        let follows = !matches!(signature, EEPROM | BOARD);
        ShownBoard {
            signature: signature.to_le_bytes(),
            place,
            length: length - 16,
            fields: structure.known(self.kinds).then(|| BoardFields {
                major,
                minor,
                length,
                rows: fields(rows(signature), bytes),
                data: follows.then(|| (place + start, length - start)),
            }),
        }
    }
}

pub fn judge_board(image: &[u8], kinds: u32) -> Judged<Board<'_>> {
    let area = board_frame(image)?;
    let (count, last) = board_shape(area)?;
    let prom_sig = Some(last).filter(|last| last.signature == PROM_SIG);
    let mut past_header = structures(area).skip(1);
    let (Some(map), Some(info)) = (past_header.next(), past_header.next()) else {
        return Err(refusal(25, area.len()));
    };
    let expected = prom_sig.map_or(area.len(), |prom_sig| prom_sig.place + 0x20);
    hold(27, 0, check_break(area, expected))?;
    hold(28, info.place, (info.end() > 4096).then_some(0))?;
    hold(29, last.place, prom_sig.and_then(|prom_sig| hash_break(prom_sig.bytes)))?;
    hold(30, map.place, map_break(map.bytes, area.len()))?;
    hold(34, map.place, map_labels_break(&map))?;
    hold(31, info.place, info.bytes.get(0x4C).filter(|&&kind| kind > 1).map(|_| 0x4C))?;
    board_contents(area, kinds)?;
    Ok(Board { area, kinds, count, info: info.bytes })
}

/// Rules 20 to 22: the first StructLen bytes.
fn board_frame(image: &[u8]) -> Judged<&[u8]> {
    let head = image.first_chunk::<0x20>().filter(|_| image.len() <= 65_536);
    let head = head.ok_or(refusal(20, 0))?;
    let length = u32_at(head, 0x0C) as usize;
    if !head.starts_with(b"$Eeprom$") || u16_at(head, 8) != 1 || ![0x20, 0x30].contains(&length) {
        return Err(refusal(21, 0));
    }
    let area = image.get(..u32_at(head, 0x10) as usize);
    area.filter(|area| area.len() >= length).ok_or(refusal(22, 0x10))
}

/// Rules 23 to 26, along the heads: the count of structures, and the last one.
fn board_shape(area: &[u8]) -> Judged<(usize, Structure<'_>)> {
    let (mut at, mut count, mut least) = (0, 0, Least(Ok(())));
    loop {
        let structure = structure_at(area, at).ok_or(refusal(23, at))?;
        let end = structure.end();
        least.note(25, at, misplaced(count, structure.signature, end == area.len()).then_some(0));
        least.note(26, at, misshapen(&structure).then_some(0));
        count += 1;
        if end == area.len() {
            least.note(25, end, (count < 3).then_some(0));
            return least.0.map(|()| (count, structure));
        }
        at = end.next_multiple_of(16);
        least.note(24, end, area.get(end..at).and_then(nonzero));
    }
}

/// Rule 25, of the structure of a number: its signature alone counts.
fn misplaced(number: usize, signature: u64, last: bool) -> bool {
    match number {
        0 => false,
        1 => signature != MAP,
        2 => signature != BOARD,
        _ => matches!(signature, EEPROM | MAP | BOARD) || signature == PROM_SIG && !last,
    }
}

/// Rule 26.
fn misshapen(structure: &Structure) -> bool {
    let length = structure.bytes.len();
    let good = match structure.signature {
        MAP => length >= 0x50 && length % 0x20 == 0x10,
        BOARD => length == 0x60,
        PROM_SIG => length >= 0x20,
        _ => return false,
    };
    !good || structure.major != 1
}

/// Rule 27: the sum is over the expected CrcLength, the stored Crc32 counted as zero.
fn check_break(area: &[u8], expected: usize) -> Option<usize> {
    let (head, rest) = area.get(..expected)?.split_first_chunk::<0x20>()?;
    let mut cleared = *head;
    cleared[0x14..0x18].fill(0);
    if !crc32(crc32(!0, &cleared), rest) != u32_at(head, 0x14) {
        return Some(0x14);
    }
    (u32_at(head, 0x18) as usize != expected).then_some(0x18)
}

/// Rule 29: the signed flag is 8000h, the type is all the other bits.
fn hash_break(bytes: &[u8]) -> Option<usize> {
    let hash_type = u16_at(bytes.first_chunk::<0x20>()?, 0x10);
    let (signed, kind) = (hash_type & 0x8000 != 0, hash_type & 0x7FFF);
    let sizes = [0, 0x10, 0x14, 0x20, 0x30, 0x40];
    let good = sizes.get(usize::from(kind)).is_some_and(|&size| match signed {
        false => bytes.len() == 0x20 + size,
        true => matches!(kind, 1..=3) && bytes.len() >= 0x20 + size,
    });
    (!good).then_some(0x10)
}

/// Rule 30: the fields and records of the map in the order of their places.
fn map_break(bytes: &[u8], struct_len: usize) -> Option<usize> {
    let (head, records) = bytes.split_first_chunk::<0x30>()?;
    let (records, _) = records.as_chunks::<0x20>();
    let (block, part) = (u64::from(u32_at(head, 0x20)), u64::from(u32_at(head, 0x26)));
    let bad_part = part != records.len() as u64 * block || part < struct_len as u64;
    label_break(head, 0x10)
        .or((block == 0).then_some(0x20))
        .or(bad_part.then_some(0x26))
        .or((head[0x2B] > 1).then_some(0x2B))
        .or((head[0x2C] > 3).then_some(0x2C))
        .or_else(|| {
            let mut records = records.iter().enumerate();
            records.find_map(|(k, record)| {
                map_record_break(record, k as u64 * block).map(|i| 0x30 + 0x20 * k + i)
            })
        })
}

fn map_record_break(record: &[u8; 0x20], offset: u64) -> Option<usize> {
    label_break(record, 0)
        .or((u32_at(record, 0x10) != 0x20).then_some(0x10))
        .or((u64::from(u32_at(record, 0x14)) != offset).then_some(0x14))
        .or((record[0x18] > 0x7F).then_some(0x18))
}

/// Rule 34, which comes between 30 and 31: the first record that has the label of an earlier one.
fn map_labels_break(map: &Structure) -> Option<usize> {
    let labels = map.records::<0x20>().iter().map(|record| &record[..16]);
    let mut numbered = labels.clone().enumerate();
    let repeated = numbered.find(|&(k, label)| labels.clone().take(k).any(|earlier| earlier == label));
    repeated.map(|(k, _)| 0x30 + 0x20 * k)
}

/// Rules 32 and 33, of known structures. A VerMinor above 0 lifts rule 32 only.
fn board_contents(area: &[u8], kinds: u32) -> Judged<()> {
    let mut least = Least(Ok(()));
    for structure in structures(area).filter(|structure| structure.known(kinds)) {
        if structure.minor == 0 {
            least.note(32, structure.place, reserved_break(&structure));
        }
        least.note(33, structure.place, data_break(&structure));
    }
    least.0
}

/// Rule 32: a Reserved row that is not wholly within Length is not read.
fn reserved_break(structure: &Structure) -> Option<usize> {
    let (from, to) = structure.reserved();
    let own = nonzero(structure.bytes.get(from..to)?).map(|i| from + i);
    let records = structure.bytes.get(to..)?;
    own.or_else(|| match structure.signature {
        MAP => records_reserved::<0x20>(records, 0x19).map(|i| to + i),
        GPIO => records_reserved::<0x30>(records, 0x22).map(|i| to + i),
        _ => None,
    })
}

fn records_reserved<const SIZE: usize>(records: &[u8], from: usize) -> Option<usize> {
    let mut records = records.as_chunks::<SIZE>().0.iter().enumerate();
    records.find_map(|(k, record)| nonzero(&record[from..]).map(|i| SIZE * k + from + i))
}

/// Rule 33: a fixed part or a record that is cut short breaks at the structure's start.
fn data_break(structure: &Structure) -> Option<usize> {
    let Some((fixed, data)) = structure.bytes.split_at_checked(structure.reserved().1) else {
        return Some(0);
    };
    match (structure.signature, data.as_chunks::<0x30>()) {
        (FPGA, _) => fixed.get(0x10).filter(|&&data_type| data_type > 4).map(|_| 0x10),
        (GPIO, (records, [])) => records.iter().enumerate().find_map(|(k, record)| {
            gpio_record_break(record).map(|i| 0x20 + 0x30 * k + i)
        }),
        (GPIO, _) => Some(0),
        _ => None,
    }
}

fn gpio_record_break(record: &[u8; 0x30]) -> Option<usize> {
    label_break(record, 0)
        .or((u32_at(record, 0x10) != 0x30).then_some(0x10))
        .or((!matches!(record[0x20], 1 | 2 | 4)).then_some(0x20))
        .or((record[0x21] > 4).then_some(0x21))
}

/// Whether the EEPROM image is chosen, and the chosen image's StructLen.
fn choose(firmware: &[u8], eeprom: &[u8], kinds: u32) -> Judged<(bool, usize)> {
    match (judge_board(firmware, kinds), judge_board(eeprom, kinds)) {
        (Ok(firmware), Ok(eeprom)) if !newer(&eeprom, &firmware) => Ok((false, firmware.area.len())),
        (Ok(firmware), Err(_)) => Ok((false, firmware.area.len())),
        (_, Ok(eeprom)) => Ok((true, eeprom.area.len())),
        (Err(refusal), Err(_)) => Err(refusal),
    }
}

/// Whether one board image is of the same board as the other and has the greater Version.
fn newer(one: &Board, other: &Board) -> bool {
    // ManuName, BrdName; BoardId, FabId, EcId, BoardType.
    let same = [0x10..0x30, 0x40..0x4D].map(|rows| one.info.get(rows.clone()) == other.info.get(rows));
    let version = |board: &Board| board.area.first_chunk::<0x20>().map(|head| u32_at(head, 0x1C));
    same == [true, true] && version(one) > version(other)
}

/// Goes from structure to structure and shows each; the count of known ones.
fn walk_board(image: &[u8], kinds: u32) -> Judged<usize> {
    let board = judge_board(image, kinds)?;
    let shown = structures(board.area).map(|structure| black_box(board.show(structure)));
    Ok(shown.filter(|structure| structure.fields.is_some()).count())
}

// ---- the filled list ----

#[repr(C)]
pub struct Entry {
    /// The tag, or the eight signature bytes as a little-endian number.
    kind: u64,
    place: usize,
    /// Past the tag and length byte, or past the generic head.
    length: usize,
    known: bool,
}

type Entries = [MaybeUninit<Entry>];

fn fill(entries: &mut Entries, count: usize, items: impl Iterator<Item = Entry>) -> Judged<usize> {
    let room = entries.get_mut(..count).ok_or(refusal(43, 0))?;
    for (entry, item) in room.iter_mut().zip(items) {
        entry.write(item);
    }
    Ok(count)
}

fn list_tiny(image: &[u8], kinds: u32, entries: &mut Entries) -> Judged<usize> {
    let tiny = judge_tiny(image, kinds)?;
    fill(entries, tiny.count, tiny.items().map(|item| {
        let known = tag_known(kinds, item.tag);
        Entry { kind: item.tag.into(), place: item.place, length: item.data.len(), known }
    }))
}

fn list_board(image: &[u8], kinds: u32, entries: &mut Entries) -> Judged<usize> {
    let board = judge_board(image, kinds)?;
    fill(entries, board.count, structures(board.area).map(|structure| {
        let (place, length) = (structure.place, structure.bytes.len() - 16);
        Entry { kind: structure.signature, place, length, known: structure.known(kinds) }
    }))
}

// ---- for C ----

fn answer(judged: Judged<usize>) -> u64 {
    judged.map_or_else(|refusal| refusal.0, |number| number as u64)
}

/// What was lent; with length 0 the pointer counts for nothing.
unsafe fn lent<'a>(bytes: *const u8, length: usize) -> &'a [u8] {
    if length == 0 { &[] } else { unsafe { std::slice::from_raw_parts(bytes, length) } }
}

unsafe fn lent_mut<'a, T>(items: *mut T, length: usize) -> &'a mut [T] {
    if length == 0 { &mut [] } else { unsafe { std::slice::from_raw_parts_mut(items, length) } }
}

#[no_mangle]
pub unsafe extern "C" fn independent_tiny_judge(image: *const u8, length: usize, kinds: u32) -> u64 {
    answer(judge_tiny(unsafe { lent(image, length) }, kinds).map(|tiny| tiny.count))
}

#[no_mangle]
pub unsafe extern "C" fn independent_board_judge(image: *const u8, length: usize, kinds: u32) -> u64 {
    answer(judge_board(unsafe { lent(image, length) }, kinds).map(|board| board.count))
}

#[no_mangle]
pub unsafe extern "C" fn independent_board_choice(
    firmware: *const u8, firmware_length: usize, eeprom: *const u8, eeprom_length: usize, kinds: u32,
) -> u64 {
    let firmware = unsafe { lent(firmware, firmware_length) };
    let eeprom = unsafe { lent(eeprom, eeprom_length) };
    match choose(firmware, eeprom, kinds) {
        Ok((which, length)) => u64::from(which) << 40 | length as u64,
        Err(refusal) => refusal.0,
    }
}

#[no_mangle]
pub unsafe extern "C" fn independent_tiny_name(
    image: *const u8, length: usize, kinds: u32, buffer: *mut u8, room: usize,
) -> u64 {
    let (image, buffer) = unsafe { (lent(image, length), lent_mut(buffer, room)) };
    answer(name_tiny(image, kinds, buffer))
}

#[no_mangle]
pub unsafe extern "C" fn independent_list(
    format: u32, image: *const u8, length: usize, kinds: u32, entries: *mut Entry, room: usize,
) -> u64 {
    let image = unsafe { lent(image, length) };
    let entries = unsafe { lent_mut(entries.cast::<MaybeUninit<Entry>>(), room) };
    let list = if format == 0 { list_tiny } else { list_board };
    answer(list(image, kinds, entries))
}

#[no_mangle]
pub unsafe extern "C" fn independent_walk(format: u32, image: *const u8, length: usize, kinds: u32) -> u64 {
    let walk = if format == 0 { walk_tiny } else { walk_board };
    answer(walk(unsafe { lent(image, length) }, kinds))
}

#[cfg(test)]
mod tests {
    use super::*;

    const FULL: u32 = 0x1_FFFF;
    /// The Lengths that a header may have.
    const HEADERS: [usize; 2] = [0x20, 0x30];
    const CASE_4: [u8; 12] = [0x56, 2, 0x0C, 0x10, 0, 1, 4, 0x74, 0x6F, 0x70, 0xB1, 0x57];

    /// Number and place of a refusal; number 0 and the count if accepted.
    fn split(answer: u64) -> (u64, u64) {
        (answer >> 32, answer & 0xFFFF_FFFF)
    }

    fn tiny_says(image: &[u8], kinds: u32) -> (u64, u64) {
        split(unsafe { independent_tiny_judge(image.as_ptr(), image.len(), kinds) })
    }

    fn board_says(image: &[u8], kinds: u32) -> (u64, u64) {
        split(unsafe { independent_board_judge(image.as_ptr(), image.len(), kinds) })
    }

    fn name_says(image: &[u8], kinds: u32, buffer: &mut [u8]) -> (u64, u64) {
        let (to, room) = (buffer.as_mut_ptr(), buffer.len());
        split(unsafe { independent_tiny_name(image.as_ptr(), image.len(), kinds, to, room) })
    }

    fn walk_says(format: u32, image: &[u8], kinds: u32) -> (u64, u64) {
        split(unsafe { independent_walk(format, image.as_ptr(), image.len(), kinds) })
    }

    fn choice_says(firmware: &[u8], eeprom: &[u8]) -> u64 {
        let (f, e) = (firmware.as_ptr(), eeprom.as_ptr());
        unsafe { independent_board_choice(f, firmware.len(), e, eeprom.len(), FULL) }
    }

    fn tiny(items: &[u8]) -> Vec<u8> {
        let mut image = [&[0x56, 2, items.len() as u8 + 4], items].concat();
        image.push(crc8(&image));
        image
    }

    fn put(image: &mut [u8], at: usize, bytes: &[u8]) {
        image[at..at + bytes.len()].copy_from_slice(bytes);
    }

    fn structure(signature: &[u8], length: u32) -> Vec<u8> {
        let mut bytes = vec![0; length as usize];
        put(&mut bytes, 0, signature);
        bytes[8] = 1;
        put(&mut bytes, 12, &length.to_le_bytes());
        bytes
    }

    fn seal(mut image: Vec<u8>, covered: usize) -> Vec<u8> {
        put(&mut image, 0x14, &[0; 4]);
        let sum = !crc32(!0, &image[..covered]);
        put(&mut image, 0x14, &sum.to_le_bytes());
        image
    }

    fn seal_whole(image: Vec<u8>) -> Vec<u8> {
        let covered = image.len();
        seal(image, covered)
    }

    /// A good image of version 4 with a header of this Length, its PartSize 20000h at least, sealed
    /// over `covered` bytes or whole.
    fn board(header: usize, records: u32, further: &[Vec<u8>], covered: Option<usize>) -> Vec<u8> {
        let mut map = structure(b"$EeprMap", 0x30 + 0x20 * records);
        let block = 0x20000u32;
        map[0x10] = b'$';
        put(&mut map, 0x20, &block.to_le_bytes());
        put(&mut map, 0x26, &(records * block).to_le_bytes());
        for k in 0..records {
            let at = 0x30 + 0x20 * k as usize;
            put(&mut map, at, format!("block number {k:03}").as_bytes());
            map[at + 0x10] = 0x20;
            put(&mut map, at + 0x14, &(k * block).to_le_bytes());
        }
        let header = structure(b"$Eeprom$", header as u32);
        let mut image = [header, map, structure(b"$BrdInfo", 0x60)].concat();
        for bytes in further {
            image.resize(image.len().next_multiple_of(16), 0);
            image.extend(bytes);
        }
        let (length, covered) = (image.len(), covered.unwrap_or(image.len()));
        put(&mut image, 0x10, &(length as u32).to_le_bytes());
        put(&mut image, 0x18, &(covered as u32).to_le_bytes());
        image[0x1C] = 4;
        seal(image, covered)
    }

    /// Two records, and with a header of 30h: map at 30h, board at A0h, FPGA at 100h, GPIO at 130h
    /// with one record at 150h, NIC at 180h, an unknown one at 1B0h, memory at 1D0h, end at 1F0h.
    /// With a header of 20h each is 10h earlier.
    fn rich(header: usize) -> Vec<u8> {
        let mut gpio = structure(b"$GpioDat", 0x50);
        put(&mut gpio, 0x20, b"g$");
        gpio[0x30] = 0x30;
        gpio[0x40] = 1;
        let (fpga, mac) = (structure(b"$FPGAnfo", 0x25), structure(b"$MacInfo", 0x30));
        let (new, memory) = (structure(b"$Newer$$", 0x11), structure(b"$MemCnfg", 0x20));
        board(header, 2, &[fpga, gpio, mac, new, memory], None)
    }

    /// One record, and `$PromSig` right after the board.
    fn signed(header: usize, hash_type: u16, length: u32) -> Vec<u8> {
        let mut prom_sig = structure(b"$PromSig", length);
        put(&mut prom_sig, 0x10, &hash_type.to_le_bytes());
        board(header, 1, &[prom_sig], Some(header + 0xD0))
    }

    /// What is said of an image with a header of 30h, if the header has this Length instead.
    fn moved((number, place): (u64, u64), header: usize) -> (u64, u64) {
        let past_header = number != 0 && place >= 0x30;
        (number, if past_header { place - 0x30 + header as u64 } else { place })
    }

    /// The rich image with one change at a time. Places are those with a header of 30h and past it;
    /// with one of 20h they are moved.
    fn check_changes(changes: &[(usize, &[u8], (u64, u64))]) {
        for header in HEADERS {
            for &(at, bytes, says) in changes {
                let mut image = rich(header);
                put(&mut image, at - 0x30 + header, bytes);
                let said = board_says(&seal_whole(image), FULL);
                assert_eq!(said, moved(says, header), "{header:x} {at:x} {bytes:x?}");
            }
        }
    }

    #[test]
    fn check_values() {
        assert_eq!(crc8(b"123456789"), 0xF4);
        assert_eq!(!crc32(!0, b"123456789"), 0xCBF4_3926);
        let bytes: Vec<u8> = (0..200u32).map(|i| (i * i * 7 + 3) as u8).collect();
        for length in 0..bytes.len() {
            let slow = bytes[..length].iter().fold(!0u32, |crc, &byte| {
                (0..8).fold(crc ^ u32::from(byte), |c, _| c >> 1 ^ (c & 1) * 0xEDB8_8320)
            });
            assert_eq!(crc32(!0, &bytes[..length]), slow);
        }
    }

    #[test]
    fn cases_1_to_7_and_14() {
        assert_eq!(split(unsafe { independent_tiny_judge(std::ptr::null(), 0, FULL) }), (1, 0));
        assert_eq!(tiny_says(&[0x56, 2, 4, 0x6F], FULL), (0, 0));
        assert_eq!(tiny_says(&[0x56, 2, 4, 0x6E], FULL), (5, 3));
        let mut buffer = [7; 6];
        assert_eq!(name_says(&CASE_4, FULL, &mut buffer), (0, 4));
        assert_eq!(&buffer, b"top1\x07\x07");
        assert_eq!(tiny_says(&[0x56, 2, 6, 0x11, 0x0F, 0x8F], FULL), (0, 1));
        assert_eq!(tiny_says(&[0x56, 3, 4, 0x6F], FULL), (3, 1));
        assert_eq!(tiny_says(&[0x56, 2, 5, 0x6F], FULL), (4, 2));
        buffer = [7; 6];
        for kinds in [FULL & !1, FULL & !2, 0] {
            assert_eq!(tiny_says(&CASE_4, kinds), (0, 2));
            assert_eq!(name_says(&CASE_4, kinds, &mut buffer[..0]), (44, 0));
        }
        assert_eq!(name_says(&CASE_4, FULL, &mut buffer[..3]), (43, 0));
        assert_eq!(buffer, [7; 6]);
    }

    #[test]
    fn cases_8_and_9() {
        let identity = |major, minor, first, second, batch: u16| {
            let [low, high] = batch.to_le_bytes();
            let item = [0x80, 0, 0, major, minor, first, second, low, high, 0x01, 1, 0xC1];
            tiny_says(&tiny(&item), FULL)
        };
        assert_eq!([major_text(0x63), major_text(0x99), major_text(0)], [*b"99", *b"0Z", *b"00"]);
        for (major, good) in [(0, true), (0x63, true), (0x80, true), (0x99, true), (0x64, false),
            (0x7F, false), (0x9A, false), (0xFF, false)] {
            assert_eq!(identity(major, 99, b' ', b'~', 9999), if good { (0, 2) } else { (11, 6) });
        }
        assert_eq!(identity(0, 100, b'a', b'a', 0), (11, 7));
        assert_eq!(identity(0, 0, 0x1F, b'a', 0), (11, 8));
        assert_eq!(identity(0, 0, b'a', 0x7F, 10_000), (11, 8));
        assert_eq!(identity(0, 0, b'a', b'a', 10_000), (11, 10));
    }

    #[test]
    fn tiny_rules() {
        for (image, says) in [(&[0x56, 2, 4][..], (1, 0)), (&[0x55, 3, 4, 0], (2, 0)),
            (&[0x56, 2, 3, 0], (4, 2))] {
            assert_eq!(tiny_says(image, FULL), says);
        }
        for (items, full, bare) in [
            (&[0x20, 1][..], (6, 3), (6, 3)),
            (&[0x11, 0, 0x02], (6, 5), (6, 5)),
            (&[0x00, 0, 0x02, 1], (6, 5), (6, 5)),
            (&[0x02, 0, 0x00, 0], (7, 5), (7, 5)),
            (&[0x01, 0, 0x01, 0, 0x11, 0], (8, 3), (0, 3)),
            (&[0x01, 0], (0, 1), (0, 1)),
            (&[0x01, 2, 0x41, 0x41], (9, 6), (0, 1)),
            (&[0x01, 3, 0xC1, 0xFF, 0x41], (9, 6), (0, 1)),
            (&[0x10, 0], (10, 4), (0, 1)),
            (&[0x61, 0, 1, 0x7F, 0, 0x41, 0x41, 0x01, 1, 0xC1], (10, 5), (0, 2)),
            (&[0x61, 0, 0, 0x7F, 0, 0x41, 0x41, 0x10, 1, 0x01, 1, 0xC1], (10, 11), (0, 3)),
        ] {
            assert_eq!((tiny_says(&tiny(items), FULL), tiny_says(&tiny(items), 0)), (full, bare));
        }
        assert_eq!(tiny_says(&tiny(&[0x61, 9, 9, 0x7F, 0, 0x41, 0x41]), FULL & !1), (11, 6));
        assert_eq!(name_says(&tiny(&[0x10, 0, 0x10, 0, 1, 1, 0xC1]), FULL, &mut []), (44, 0));
        let second = tiny(&[0x10, 1, 1, 4, 0xC1, 0x42, 0x43, 0xC4]);
        let mut buffer = [0; 3];
        assert_eq!(name_says(&second, FULL, &mut buffer), (0, 3));
        assert_eq!(&buffer, b"BCD");
    }

    #[test]
    fn case_10() {
        let broken = |text: &[u8]| {
            let mut label = [0; 16];
            put(&mut label, 0, text);
            label_break(&label, 0)
        };
        for good in [&b"top1$"[..], b"$", b"sixteen letters!", b"fifteen letters$"] {
            assert_eq!(broken(good), None);
        }
        assert_eq!((broken(b""), broken(b"top1"), broken(b"a\x7F$")), (Some(0), Some(4), Some(1)));
        assert_eq!((broken(b"a$\0\0b"), broken(b"$$")), (Some(4), Some(1)));
    }

    #[test]
    fn cases_11_to_13() {
        let with = |at: usize, value: u8, version: u8| {
            let mut image = board(0x30, 1, &[], None);
            image[0x1C] = version;
            image[at] ^= value;
            seal(image, 0xE0)
        };
        let same = |version| with(0x80 + 0x3F, 0, version);
        assert_eq!(board_says(&same(4), 0), (0, 3));
        assert_eq!(choice_says(&same(3), &same(4)), 1 << 40 | 0xE0);
        assert_eq!(choice_says(&same(4), &same(4)), 0xE0);
        assert_eq!(choice_says(&with(0xB0, 1, 3), &with(0xBF, 1, 4)), 1 << 40 | 0xE0);
        for at in [0x90, 0xAF, 0xC0, 0xC7, 0xC8, 0xCB, 0xCC] {
            assert_eq!(choice_says(&with(at, 1, 3), &same(4)), 0xE0);
        }
        assert_eq!(choice_says(&with(0x10, 1, 3), &same(3)), 1 << 40 | 0xE0);
        assert_eq!(choice_says(&same(3), &with(0x10, 1, 4)), 0xE0);
        assert_eq!(choice_says(&with(0x11, 0x10, 3), &[]), 22 << 32 | 0x10);
        assert_eq!(board_says(&board(0x30, 122, &[], None), FULL), (0, 3));
        assert_eq!(board_says(&board(0x30, 123, &[], None), FULL), (28, 0x30 + 0x30 + 123 * 0x20));
    }

    /// Headers without structures after them, and zeros up to what is lent.
    #[test]
    fn header_bounds() {
        let says = |length: u32, struct_len: u32, lent: usize| {
            let mut image = structure(b"$Eeprom$", 0x50);
            put(&mut image, 0x0C, &length.to_le_bytes());
            put(&mut image, 0x10, &struct_len.to_le_bytes());
            let said = [FULL, 0].map(|kinds| board_says(&image[..lent], kinds));
            assert_eq!(said[0], said[1]);
            said[0]
        };
        for (length, struct_len, lent, answer) in [
            (0x20, 0x20, 0x1F, (20, 0)),
            (0x20, 0x1F, 0x1F, (20, 0)),
            (0x20, 0x1F, 0x20, (22, 0x10)),
            (0x20, 0x20, 0x20, (25, 0x20)),
            (0x20, 0x21, 0x20, (22, 0x10)),
            (0x20, 0x20, 0x21, (25, 0x20)),
            (0x20, 0x21, 0x21, (23, 0x20)),
            (0x20, 0x1F, 0x2F, (22, 0x10)),
            (0x20, 0x20, 0x2F, (25, 0x20)),
            (0x20, 0x2F, 0x2F, (23, 0x20)),
            (0x20, 0x30, 0x2F, (22, 0x10)),
            (0x20, 0x1F, 0x30, (22, 0x10)),
            (0x20, 0x20, 0x30, (25, 0x20)),
            (0x20, 0x30, 0x30, (23, 0x20)),
            (0x20, 0, 0x50, (22, 0x10)),
            (0x20, u32::MAX, 0x50, (22, 0x10)),
            (0x30, 0x20, 0x1F, (20, 0)),
            (0x30, 0x20, 0x20, (22, 0x10)),
            (0x30, 0x2F, 0x2F, (22, 0x10)),
            (0x30, 0x30, 0x2F, (22, 0x10)),
            (0x30, 0x20, 0x30, (22, 0x10)),
            (0x30, 0x2F, 0x30, (22, 0x10)),
            (0x30, 0x30, 0x30, (25, 0x30)),
            (0x30, 0x31, 0x30, (22, 0x10)),
            (0x30, 0x2F, 0x31, (22, 0x10)),
            (0x30, 0x30, 0x31, (25, 0x30)),
            (0x30, 0x31, 0x31, (23, 0x30)),
            (0x30, 0x20, 0x50, (22, 0x10)),
            (0x30, u32::MAX, 0x50, (22, 0x10)),
        ] {
            assert_eq!(says(length, struct_len, lent), answer, "{length:x} {struct_len:x} {lent:x}");
        }
        let near = (0..=0x50).filter(|length| ![0x20, 0x30].contains(length));
        let far = [0x120, 0x130, 0x1_0020, 0x1_0030, 0x2000_0000, 0x3000_0000, 0x8000_0020, u32::MAX];
        for length in near.chain(far) {
            for lent in 0..=0x50 {
                let answer = if lent < 0x20 { (20, 0) } else { (21, 0) };
                for struct_len in [0, 0x20, 0x30, lent as u32] {
                    assert_eq!(says(length, struct_len, lent), answer, "{length:x} {lent:x}");
                }
            }
        }
    }

    /// One bit changed in a generic head of `$Eeprom$`. It may turn either Length into the other,
    /// and then no structure starts where the header is said to end.
    #[test]
    fn damaged_headers() {
        for header in HEADERS {
            for (at, bit) in (0..0x10).flat_map(|at| (0..8).map(move |bit| (at, bit))) {
                let mut image = board(header, 1, &[], None);
                image[at] ^= 1 << bit;
                let image = seal_whole(image);
                let (cut, whole) = match (at, bit, header) {
                    (0x0C, 4, 0x20) => ((22, 0x10), (23, 0x30)),
                    (0x0C, 4, _) => ((22, 0x10), (23, 0x20)),
                    (0x0A..=0x0B, ..) => ((22, 0x10), (0, 3)),
                    _ => ((21, 0), (21, 0)),
                };
                for lent in 0..=image.len() {
                    let says = match lent {
                        _ if lent < 0x20 => (20, 0),
                        _ if lent < image.len() => cut,
                        _ => whole,
                    };
                    assert_eq!(board_says(&image[..lent], FULL), says, "{header:x} {at:x} {bit} {lent:x}");
                }
            }
        }
    }

    #[test]
    fn longest_images() {
        for header in HEADERS {
            let mut image = rich(header);
            image.resize(65_536, 9);
            assert_eq!(board_says(&image, FULL), (0, 8));
            image.push(0);
            assert_eq!(board_says(&image, FULL), (20, 0));
            let filled = |length: usize| {
                let filler = structure(b"$Newer$$", (length - header - 0xB0) as u32);
                board(header, 1, &[filler], None)
            };
            assert_eq!(board_says(&filled(65_536), FULL), (0, 4));
            assert_eq!(board_says(&filled(65_537), FULL), (20, 0));
            assert_eq!(board_says(&filled(65_537)[..65_536], FULL), (22, 0x10));
        }
    }

    /// Case 13 with either header; PartSize may not be less than StructLen.
    #[test]
    fn one_record() {
        for header in HEADERS {
            let end = header + 0xB0;
            let of_size = |size: usize| {
                let mut image = board(header, 1, &[], None);
                put(&mut image, header + 0x20, &(size as u32).to_le_bytes());
                put(&mut image, header + 0x26, &(size as u32).to_le_bytes());
                seal(image, end)
            };
            assert_eq!(board_says(&of_size(end), FULL), (0, 3));
            assert_eq!(board_says(&of_size(end - 1), FULL), (30, header as u64 + 0x26));
            let map = header as u64;
            let rows = [[EEPROM, 0, map - 0x10, 1], [MAP, map, 0x40, 1], [BOARD, map + 0x50, 0x50, 1]];
            assert_eq!(list_says(1, &of_size(end), 0, 3), ((0, 3), rows.into()));
        }
    }

    /// 122 records are the most with either header, though the board ends at FF0h with one of 20h.
    #[test]
    fn most_map_records() {
        for (header, end) in [(0x20, 0xFF0), (0x30, 0x1000)] {
            let with = |records| board(header, records, &[], None);
            assert_eq!(board_says(&with(121), FULL), (0, 3));
            let most = with(122);
            let (says, rows) = list_says(1, &most, FULL, 3);
            assert_eq!((says, rows[2]), ((0, 3), [BOARD, end - 0x60, 0x50, 1]));
            assert_eq!((most.len() as u64, walk_says(1, &most, 0)), (end, (0, 3)));
            let shown = judge_board(&most, 0).unwrap();
            let label = |k: usize| shown.map_record(k).map(|mut record| record.remove(0).1);
            assert_eq!(label(0), Ok(Value::Bytes(b"block number 000")));
            assert_eq!(label(121), Ok(Value::Bytes(b"block number 121")));
            assert_eq!(label(122), Err(refusal(42, 0)));
            for kinds in [FULL, 0] {
                assert_eq!(board_says(&with(123), kinds), (28, end - 0x40));
                assert_eq!(board_says(&with(2000), kinds), (28, header as u64 + 0x30 + 2000 * 0x20));
            }
        }
    }

    /// Rule 32 looks at 20h to 2Fh with a header of 30h; with one of 20h the map is there.
    #[test]
    fn header_reserved() {
        for at in 0x1F..0x30 {
            for (minor, byte) in [(0, 0), (0, 1), (1, 1), (0x80, 0xFF)] {
                let mut image = board(0x30, 1, &[], None);
                (image[at], image[0x0B]) = (byte, minor);
                let broken = at >= 0x20 && (minor, byte) == (0, 1);
                let says = if broken { (32, at as u64) } else { (0, 3) };
                let image = seal_whole(image);
                assert_eq!([FULL, 0].map(|kinds| board_says(&image, kinds)), [says; 2], "{at:x} {minor}");
            }
        }
        for (minor, version) in [(0, 0), (0, 0xFF), (1, 0), (0x80, 0xFF)] {
            let mut image = board(0x20, 1, &[], None);
            (image[0x0B], image[0x1F]) = (minor, version);
            let image = seal_whole(image);
            assert_eq!([FULL, 0].map(|kinds| board_says(&image, kinds)), [(0, 3); 2]);
        }
        let mut image = board(0x20, 1, &[], None);
        (image[0x0A], image[0x4F]) = (1, 1);
        assert_eq!(board_says(&seal_whole(image), 0), (32, 0x4F));
    }

    #[test]
    fn board_frame_and_shape() {
        for (header, at, bytes, says) in [
            (0x30, 0x07, &b"_"[..], (21, 0)),
            (0x30, 0x08, &[2], (21, 0)),
            (0x30, 0x0C, &[0x1F], (21, 0)),
            (0x30, 0x0C, &[0x20], (23, 0x20)),
            (0x30, 0x0C, &[0x2F], (21, 0)),
            (0x30, 0x0C, &[0x40], (21, 0)),
            (0x30, 0x0D, &[1], (21, 0)),
            (0x30, 0x10, &[0x20, 0], (22, 0x10)),
            (0x30, 0x10, &[0x2F, 0], (22, 0x10)),
            (0x30, 0x10, &[0x30, 0], (25, 0x30)),
            (0x30, 0x10, &[0x3F, 0], (23, 0x30)),
            (0x30, 0x10, &[0xA0, 0], (25, 0xA0)),
            (0x30, 0x10, &[0xDF, 1], (23, 0x1D0)),
            (0x30, 0x10, &[0xF1, 1], (22, 0x10)),
            (0x30, 0x18, &[0xEF], (27, 0x18)),
            (0x20, 0x07, b"_", (21, 0)),
            (0x20, 0x08, &[2], (21, 0)),
            (0x20, 0x0C, &[0x1F], (21, 0)),
            (0x20, 0x0C, &[0x21], (21, 0)),
            (0x20, 0x0C, &[0x30], (23, 0x30)),
            (0x20, 0x0C, &[0x10], (21, 0)),
            (0x20, 0x0D, &[1], (21, 0)),
            (0x20, 0x10, &[0x1F, 0], (22, 0x10)),
            (0x20, 0x10, &[0x20, 0], (25, 0x20)),
            (0x20, 0x10, &[0x21, 0], (23, 0x20)),
            (0x20, 0x10, &[0x2F, 0], (23, 0x20)),
            (0x20, 0x10, &[0x30, 0], (23, 0x20)),
            (0x20, 0x10, &[0x90, 0], (25, 0x90)),
            (0x20, 0x10, &[0xCF, 1], (23, 0x1C0)),
            (0x20, 0x10, &[0xE1, 1], (22, 0x10)),
            (0x20, 0x18, &[0xEF], (27, 0x18)),
            (0x20, 0x18, &[0xF0], (27, 0x18)),
        ] {
            let mut image = rich(header);
            assert_eq!([FULL, 0].map(|kinds| board_says(&image, kinds)), [(0, 8); 2]);
            put(&mut image, at, bytes);
            assert_eq!(board_says(&seal_whole(image), FULL), says, "{header:x} {at:x} {bytes:x?}");
        }
        check_changes(&[
            (0x1DC, &[0x1F], (23, 0x1F0)),
            (0x1DC, &[0x21], (23, 0x1D0)),
            (0x1DC, &[0x0F], (23, 0x1D0)),
            (0x1DF, &[0xFF], (23, 0x1D0)),
            (0x1B0, b"S", (23, 0x1B0)),
            (0x12F, &[1], (24, 0x12F)),
            (0x30, b"$BrdInfo", (25, 0x30)),
            (0xA0, b"$EeprMap", (25, 0xA0)),
            (0x1B0, b"$Eeprom$", (25, 0x1B0)),
            (0x1B0, b"$PromSig", (25, 0x1B0)),
            (0x1D0, b"$BrdInfo", (25, 0x1D0)),
            (0x1D0, b"$PromSig", (0, 8)),
            (0x38, &[0], (26, 0x30)),
            (0xA9, &[1], (26, 0xA0)),
        ]);
        for header in HEADERS {
            let mut image = rich(header);
            image[0x14] ^= 1;
            image[0x18] ^= 1;
            assert_eq!(board_says(&image, FULL), (27, 0x14));
        }
    }

    #[test]
    fn board_fields() {
        check_changes(&[
            (0x41, &[1], (30, 0x41)),
            (0x52, &[0], (30, 0x50)),
            (0x56, &[1], (30, 0x56)),
            (0x5B, &[2], (30, 0x5B)),
            (0x5C, &[4], (30, 0x5C)),
            (0x60, b"a$a", (30, 0x62)),
            (0x70, &[0x1F], (30, 0x70)),
            (0x94, &[1], (30, 0x94)),
            (0x98, &[0x80], (30, 0x98)),
            (0x98, &[0x7F], (0, 8)),
            (0xEC, &[2], (31, 0xEC)),
            (0x5D, &[1], (32, 0x5D)),
            (0x99, &[1], (32, 0x99)),
            (0xED, &[1], (32, 0xED)),
            (0x113, &[1], (32, 0x113)),
            (0x120, &[1], (0, 8)),
            (0x172, &[1], (32, 0x172)),
            (0x1A0, &[1], (32, 0x1A0)),
            (0x1E2, &[1], (32, 0x1E2)),
            (0x110, &[5], (33, 0x110)),
            (0x150, &[0], (33, 0x150)),
            (0x160, &[0x20], (33, 0x160)),
            (0x170, &[3], (33, 0x170)),
            (0x171, &[5], (33, 0x171)),
            (0x13A, &[1, 0, 0x50, 0, 0, 0, 9], (0, 8)),
            (0x13C, &[0x4F], (33, 0x130)),
        ]);
    }

    /// An image with a map of these labels: the first record 30h after the header, after the last
    /// one the board.
    fn labelled(header: usize, labels: &[&[u8]], further: &[Vec<u8>]) -> Vec<u8> {
        let mut image = board(header, labels.len() as u32, further, None);
        for (k, label) in labels.iter().enumerate() {
            put(&mut image, header + 0x30 + 0x20 * k, &[0; 16]);
            put(&mut image, header + 0x30 + 0x20 * k, label);
        }
        seal_whole(image)
    }

    #[test]
    fn equal_labels() {
        for (labels, says) in [
            ([&b"a$"[..], b"b$", b"c$", b"d$"], (0, 3)),
            ([b"a$", b"a$", b"c$", b"d$"], (34, 0x80)),
            ([b"a$", b"b$", b"c$", b"a$"], (34, 0xC0)),
            ([b"a$", b"b$", b"b$", b"a$"], (34, 0xA0)),
            ([b"a$", b"b$", b"a$", b"b$"], (34, 0xA0)),
            ([b"a$", b"a$", b"a$", b"a$"], (34, 0x80)),
            ([b"a$", b"A$", b"a $", b"aa$"], (0, 3)),
            ([b"$", b"b$", b"c$", b"d$"], (0, 3)),
            ([b"$", b"b$", b"$", b"d$"], (34, 0xA0)),
            ([b"sixteen letters!", b"sixteen letters?", b"Sixteen letters!", b"sixteen letter$"], (0, 3)),
            ([b"sixteen letters!", b"b$", b"c$", b"sixteen letters!"], (34, 0xC0)),
            ([b"a", b"a", b"c$", b"d$"], (30, 0x61)),
        ] {
            for header in HEADERS {
                let image = labelled(header, &labels, &[]);
                for kinds in [FULL, 0, 1 << 10, !0] {
                    assert_eq!(board_says(&image, kinds), moved(says, header), "{labels:x?}");
                }
            }
        }
        let numbers: Vec<Vec<u8>> = (0..121).map(|k| format!("{k}$").into()).collect();
        let mut labels: Vec<&[u8]> = numbers.iter().map(|label| &label[..]).collect();
        for says in [(34, 0xF80), (28, 0xFC0)] {
            labels.push(b"0$");
            for header in HEADERS {
                let image = labelled(header, &labels, &[]);
                assert_eq!(board_says(&image, FULL), moved(says, header));
            }
        }
    }

    /// Labels outside the map's records may equal each other and those of records.
    #[test]
    fn equal_labels_elsewhere() {
        let mut gpio = structure(b"$GpioDat", 0x80);
        for at in [0x20, 0x50] {
            put(&mut gpio, at, b"a$");
            (gpio[at + 0x10], gpio[at + 0x20]) = (0x30, 1);
        }
        let mut image = labelled(0x30, &[b"a$", b"b$"], &[gpio]);
        put(&mut image, 0x40, b"a$");
        assert_eq!(board_says(&seal(image, 0x180), FULL), (0, 4));
    }

    /// Two equal labels, the second at 80h, the board at A0h and `$PromSig` at 100h, and one more
    /// break.
    #[test]
    fn equal_labels_in_order() {
        let image = labelled(0x30, &[b"a$", b"a$"], &[structure(b"$PromSig", 0x20)]);
        for (at, byte, says) in [
            (0x0C, 0x2F, (21, 0)),
            (0x0C, 0x20, (23, 0x20)),
            (0x38, 2, (26, 0x30)),
            (0x18, 0, (27, 0x18)),
            (0x110, 6, (29, 0x110)),
            (0x98, 0x80, (30, 0x98)),
            (0x3A, 1, (34, 0x80)),
            (0x98, 0x7F, (34, 0x80)),
            (0xEC, 2, (34, 0x80)),
            (0x2F, 1, (34, 0x80)),
            (0x99, 1, (34, 0x80)),
        ] {
            let mut image = image.clone();
            image[at] = byte;
            assert_eq!(board_says(&seal(image, 0x120), FULL), says, "{at:x} {byte:x}");
        }
        let mut further = structure(b"$FPGAnfo", 0x20);
        further[0x10] = 5;
        assert_eq!(board_says(&labelled(0x30, &[b"a$", b"a$"], &[further]), FULL), (34, 0x80));
    }

    #[test]
    fn equal_labels_in_every_call() {
        let [good, bad] = [b"b$", b"a$"].map(|second| labelled(0x30, &[b"a$", second], &[]));
        let left = [7, 7, 7, 1];
        for room in [0, 2, 3] {
            assert_eq!(list_says(1, &bad, 0, room), ((34, 0x80), vec![left; room]));
        }
        assert_eq!(walk_says(1, &bad, FULL), (34, 0x80));
        assert_eq!((choice_says(&bad, &good), choice_says(&good, &bad)), (1 << 40 | 0x100, 0x100));
        assert_eq!((choice_says(&bad, &[]), choice_says(&[], &bad)), (34 << 32 | 0x80, 20 << 32));
        assert_eq!(choice_says(&good, &good), 0x100);
    }

    /// A structure at E0h with every byte past its head FFh, by every listed signature.
    #[test]
    fn short_structures() {
        for (bit, signature) in LISTED.iter().enumerate() {
            let says = |length: u32, major: u8, minor: u8, kinds: u32| {
                let mut bytes = structure(&signature.to_le_bytes(), length);
                bytes[16..].fill(0xFF);
                (bytes[8], bytes[10]) = (major, minor);
                board_says(&board(0x30, 1, &[bytes], None), kinds)
            };
            let (fixed, kinds) = if *signature == MAC { (0x30, 1 << 14) } else { (0x20, 256 << bit) };
            let reserved = match *signature { FPGA => 0x13, MEMORY => 0x12, MAC => 0x20, _ => 0x10 };
            let full = if *signature == FPGA { (33, 0xF0) } else { (0, 4) };
            assert_eq!((says(0x10, 1, 0, kinds), says(fixed - 1, 1, 0, kinds)), ((33, 0xE0), (33, 0xE0)));
            assert_eq!((says(fixed - 1, 1, 1, FULL), says(fixed, 1, 1, FULL)), ((33, 0xE0), full));
            assert_eq!(says(fixed, 1, 0, kinds), (32, 0xE0 + reserved));
            for unknown in [says(0x10, 2, 0, FULL), says(fixed, 0, 0, FULL), says(fixed, 1, 0, !kinds)] {
                assert_eq!(unknown, (0, 4));
            }
        }
        let gpio = |at: usize, length: u32| {
            let mut bytes = structure(b"$GpioDat", length);
            bytes[at] = 1;
            board_says(&board(0x30, 1, &[bytes], None), FULL)
        };
        assert_eq!((gpio(0x4F, 0x7F), gpio(0x72, 0x7F), gpio(0x4F, 0x4F + 1)),
            ((32, 0xE0 + 0x4F), (33, 0xE0), (32, 0xE0 + 0x4F)));
    }

    #[test]
    fn hashes() {
        for (hash_type, length, good) in [(0, 0x20, true), (0, 0x21, false), (1, 0x30, true),
            (2, 0x34, true), (3, 0x40, true), (4, 0x50, true), (5, 0x60, true), (5, 0x5F, false),
            (6, 0x20, false), (0x8000, 0x20, false), (0x8001, 0x30, true), (0x8001, 0x2F, false),
            (0x8003, 0x99, true), (0x8004, 0x50, false), (0x4001, 0x30, false)] {
            let says = if good { (0, 4) } else { (29, 0xF0) };
            for header in HEADERS {
                let said = board_says(&signed(header, hash_type, length), 0);
                assert_eq!(said, moved(says, header), "{header:x} {hash_type:x} {length:x}");
            }
        }
        for header in HEADERS {
            let start = header + 0xB0;
            let mut image = signed(header, 0, 0x20);
            image[start + 0x0C] = 0x1F;
            assert_eq!(board_says(&image, FULL), moved((23, 0x100), header));
            let mut image = signed(header, 0x8003, 0x99);
            image[start + 0x20] = 1;
            assert_eq!(board_says(&image, FULL), (0, 4));
            image[start + 0x12] = 1;
            assert_eq!(board_says(&image, FULL), (27, 0x14));
            let mut image = seal(image, start + 0x20);
            assert_eq!(board_says(&image, FULL), moved((32, 0xF2), header));
            image[0x18] ^= 0x10;
            assert_eq!(board_says(&seal(image, start + 0x20), FULL), (27, 0x18));
        }
    }

    fn list_says(format: u32, image: &[u8], kinds: u32, room: usize) -> ((u64, u64), Vec<[u64; 4]>) {
        let mut entries: Vec<Entry> = Vec::new();
        entries.resize_with(room, || Entry { kind: 7, place: 7, length: 7, known: true });
        let to = entries.as_mut_ptr();
        let says = unsafe { independent_list(format, image.as_ptr(), image.len(), kinds, to, room) };
        let rows = entries.iter().map(|e| [e.kind, e.place as u64, e.length as u64, e.known.into()]);
        (split(says), rows.collect())
    }

    #[test]
    fn lists() {
        let left = [7, 7, 7, 1];
        let tiny_list = list_says(0, &CASE_4, 1, 3);
        assert_eq!(tiny_list, ((0, 2), vec![[0x10, 3, 1, 0], [1, 5, 4, 1], left]));
        assert_eq!(list_says(0, &CASE_4, 1, 1), ((43, 0), vec![left]));
        assert_eq!(list_says(1, &CASE_4, 1, 0), ((20, 0), vec![]));
        let mut image = rich(0x30);
        put(&mut image, 0x1D8, &[2]);
        let (says, rows) = list_says(1, &seal(image, 0x1F0), FULL & !(1 << 9), 9);
        let known: Vec<u64> = rows.iter().map(|row| row[3]).collect();
        assert_eq!((says, &known[..8]), ((0, 8), &[1, 1, 1, 0, 1, 1, 0, 0][..]));
        assert_eq!((rows[4], rows[8]), ([GPIO, 0x130, 0x40, 1], left));
    }

    /// The shown rows of each table are those of 000, one after the other from the generic head to
    /// Reserved, Crc32 left out; of a record from its start.
    #[test]
    fn tables() {
        let ends = |rows: &[Row], from: usize| {
            rows.iter().fold(from, |end, &(label, offset, length)| {
                assert_eq!(offset, if label == "CrcLength" { end + 4 } else { end }, "{label}");
                offset + length
            })
        };
        for signature in [EEPROM, MAP, BOARD, PROM_SIG].into_iter().chain(LISTED) {
            let empty = Structure { place: 0, signature, major: 1, minor: 0, bytes: &[] };
            assert_eq!(ends(rows(signature), 0x10), empty.reserved().0);
        }
        assert_eq!((ends(&MAP_RECORD, 0), ends(&GPIO_RECORD, 0)), (0x19, 0x22));
    }

    #[test]
    fn shown_tiny() {
        let image = tiny(&[0x80, 0, 1, 0x99, 7, b'x', b'y', 0x0F, 0x27, 0x60, 1, 2, 3, 4, 5, 6, 0x10, 1,
            0x20, 8, 9, 0x01, 3, 0x41, 0xC2, 0xC3]);
        let full = judge_tiny(&image, FULL).unwrap();
        let ShownTiny { tag, place, length, fields } = full.item(0).unwrap();
        assert_eq!((tag, place, length), (0x80, 3, 8));
        let Some(TinyFields::Identity(shown)) = fields else { panic!() };
        assert_eq!([shown.serial, shown.part].map(|string| text(string.unwrap())), [&b"AB"[..], b"C"]);
        assert_eq!((major_text(shown.major), shown.minor, shown.characters), (*b"0Z", 7, *b"xy"));
        assert_eq!(shown.batch, Some(9999));
        assert!(matches!(full.item(1).unwrap().fields, Some(TinyFields::Address(&[1, 2, 3, 4, 5, 6]))));
        assert!(matches!(full.item(2).unwrap().fields, Some(TinyFields::Serial(Some(&[0xC3])))));
        assert!(matches!(full.item(3), Ok(ShownTiny { tag: 0x20, place: 21, length: 2, fields: None })));
        assert!(matches!(full.item(4).unwrap().fields, Some(TinyFields::Pool(2, 26, 3))));
        assert_eq!(full.item(5).err(), Some(refusal(42, 0)));
        assert_eq!((full.string(1), full.string(2)), (Ok(Some(&[0xC3][..])), Err(refusal(42, 0))));
        let bare = judge_tiny(&image, FULL & !1).unwrap();
        assert!(matches!(bare.item(2).unwrap().fields, Some(TinyFields::Serial(None))));
        assert!(matches!(bare.item(4), Ok(ShownTiny { tag: 0x01, place: 24, length: 3, fields: None })));
        assert_eq!((bare.string(0), bare.string(usize::MAX), bare.string_count()), (Ok(None), Ok(None), 0));
        let flags = judge_tiny(&[0x56, 2, 6, 0x11, 0x0F, 0x8F], FULL).unwrap().item(0).unwrap();
        assert!(matches!(flags.fields, Some(TinyFields::Flags(0x0F))));
        let without = tiny(&[0x11, 0]);
        assert_eq!(judge_tiny(&without, FULL).unwrap().string(0), Err(refusal(42, 0)));
    }

    #[test]
    fn shown_boards() {
        let mut image = rich(0x30);
        put(&mut image, 0x111, &[7, 9]);
        put(&mut image, 0x164, &[1, 2, 3, 4, 5, 6, 7, 8, 9, 10, 11, 12, 4, 3]);
        let image = seal(image, 0x1F0);
        let numbers = |fields: Vec<Field>| -> Vec<(&str, u32)> {
            let number = |value| if let Value::Number(number) = value { number } else { 0 };
            fields.into_iter().map(|(label, value)| (label, number(value))).collect()
        };
        let board = judge_board(&image, FULL).unwrap();
        let fpga = board.item(3).unwrap();
        assert_eq!((&fpga.signature, fpga.place, fpga.length), (b"$FPGAnfo", 0x100, 0x15));
        let fpga = fpga.fields.unwrap();
        assert_eq!((fpga.major, fpga.minor, fpga.length, fpga.data), (1, 0, 0x25, Some((0x120, 5))));
        assert_eq!(numbers(fpga.rows), [("DataType", 0), ("DevNum", 7), ("FuncNum", 9)]);
        assert!(board.item(2).unwrap().fields.unwrap().data.is_none());
        assert!(board.item(6).unwrap().fields.is_none());
        assert_eq!(board.item(8).err(), Some(refusal(42, 0)));
        assert_eq!(numbers(board.map_record(1).unwrap()),
            [("MapLabel", 0), ("Length", 0x20), ("Offset", 0x20000), ("Address", 0)]);
        let gpio = [("GpioLabel", 0), ("Length", 0x30), ("Offset", 0x0403_0201), ("AndData", 0x0807_0605),
            ("OrData", 0x0C0B_0A09), ("DataSize", 4), ("DataType", 3)];
        assert_eq!(numbers(board.gpio_record(4, 0).unwrap()), gpio);
        let fewer = judge_board(&image, FULL & !(1 << 10)).unwrap();
        for none in [board.map_record(2), board.gpio_record(4, 1), board.gpio_record(3, 0),
            board.gpio_record(8, 0), fewer.gpio_record(4, 0)] {
            assert_eq!(none.err(), Some(refusal(42, 0)));
        }
    }

    /// A header shows its own Length, and all else is shown 10h earlier after one of 20h.
    #[test]
    fn shown_headers() {
        let images = HEADERS.map(rich);
        for kinds in [FULL, 0, 1 << 10, FULL & !(1 << 10)] {
            let [short, long] = images.each_ref().map(|image| judge_board(image, kinds).unwrap());
            for (board, length, struct_len) in [(&short, 0x20, 0x1E0), (&long, 0x30, 0x1F0)] {
                let rows = [("StructLen", struct_len), ("CrcLength", struct_len), ("Version", 4)];
                let rows = rows.map(|(label, number)| (label, Value::Number(number))).into();
                let fields = Some(BoardFields { major: 1, minor: 0, length, rows, data: None });
                let header = ShownBoard { signature: *b"$Eeprom$", place: 0, length: length - 0x10, fields };
                assert_eq!(board.item(0), Ok(header));
                assert_eq!((board.count, board.item(8)), (8, Err(refusal(42, 0))));
            }
            for number in 1..8 {
                let mut item = long.item(number).unwrap();
                item.place -= 0x10;
                if let Some(BoardFields { data: Some((place, _)), .. }) = &mut item.fields {
                    *place -= 0x10;
                }
                assert_eq!(short.item(number), Ok(item));
            }
            for number in 0..3 {
                assert_eq!(short.map_record(number), long.map_record(number));
                for item in 0..9 {
                    assert_eq!(short.gpio_record(item, number), long.gpio_record(item, number));
                }
            }
            assert_eq!(short.gpio_record(4, 0).is_ok(), kinds >> 10 & 1 == 1);
        }
    }

    /// List and walk over either header, the list with the same entries but for their places.
    #[test]
    fn listed_headers() {
        let ([short, long], left) = (HEADERS.map(rich), [7, 7, 7, 1]);
        for kinds in [FULL, 0, 1 << 10, FULL & !(1 << 10)] {
            let (says, mut rows) = list_says(1, &long, kinds, 9);
            assert_eq!((says, rows[0], rows[8]), ((0, 8), [EEPROM, 0, 0x20, 1], left));
            rows[0][2] -= 0x10;
            rows[1..8].iter_mut().for_each(|row| row[1] -= 0x10);
            let known = rows[..8].iter().map(|row| row[3]).sum();
            assert_eq!(list_says(1, &short, kinds, 9), (says, rows));
            assert_eq!([walk_says(1, &short, kinds), walk_says(1, &long, kinds)], [(0, known); 2]);
            assert_eq!(list_says(1, &short, kinds, 7), ((43, 0), vec![left; 7]));
        }
        for (lent, says) in [(0x1F, (20, 0)), (0x20, (22, 0x10)), (0x1DF, (22, 0x10))] {
            assert_eq!(list_says(1, &short[..lent], FULL, 9), (says, vec![left; 9]));
            assert_eq!(walk_says(1, &short[..lent], FULL), says);
        }
        assert_eq!(list_says(1, &long[..0x2F], FULL, 9), ((22, 0x10), vec![left; 9]));
        assert_eq!(walk_says(1, &long[..0x2F], FULL), (22, 0x10));
    }

    /// The choice between two images does not depend on the Lengths of their headers.
    #[test]
    fn chosen_headers() {
        let with = |header: usize, version: u8, at: usize| {
            let mut image = board(header, 1, &[], None);
            image[0x1C] = version;
            image[header + 0x50 + at] ^= 1;
            let mut image = seal_whole(image);
            image.push(9);
            image
        };
        // The first byte of BrdSerial, which is not compared.
        let serial = 0x30;
        for (one, other) in HEADERS.into_iter().flat_map(|one| HEADERS.map(|other| (one, other))) {
            let (firmware, eeprom) = (one as u64 + 0xB0, 1 << 40 | other as u64 + 0xB0);
            for (version, at, says) in [(4, serial, eeprom), (4, 0x3F, eeprom), (3, serial, firmware),
                (2, serial, firmware), (4, 0x10, firmware), (4, 0x2F, firmware), (4, 0x40, firmware),
                (4, 0x44, firmware), (4, 0x4B, firmware), (4, 0x4C, firmware)] {
                assert_eq!(choice_says(&with(one, 3, serial), &with(other, version, at)), says, "{at:x}");
            }
            let (good, bad) = (|header| with(header, 3, serial), |header| with(header, 4, 0x0F));
            assert_eq!(choice_says(&bad(one), &good(other)), eeprom);
            assert_eq!(choice_says(&good(one), &bad(other)), firmware);
            assert_eq!(choice_says(&bad(one)[..one], &bad(other)), 22 << 32 | 0x10);
            assert_eq!(choice_says(&good(one)[..0x1F], &good(other)[..other]), 20 << 32);
        }
    }

    #[test]
    fn prefixes() {
        for header in HEADERS {
            let (whole, longest) = (rich(header), signed(header, 0x8001, 0x35));
            for length in 0..whole.len() {
                let says = if length < 0x20 { (20, 0) } else { (22, 0x10) };
                assert_eq!(board_says(&whole[..length], FULL), says);
                assert_eq!(board_says(&longest[..length.min(header + 0xE4)], 0), says);
            }
        }
        for length in 0..CASE_4.len() {
            let says = if length < 4 { (1, 0) } else { (4, 2) };
            assert_eq!(tiny_says(&CASE_4[..length], FULL), says);
        }
    }

    /// Demand 3 along mutated images: accepted with a list, accepted with any part of it, the same
    /// entries but for their known marks, and the walk knows as many as the list marks.
    #[test]
    fn mutations() {
        let mut state = 0x9E37_79B9_7F4A_7C15u64;
        let mut next = |below: u64| {
            state ^= state << 13;
            state ^= state >> 7;
            state ^= state << 17;
            (state >> 11) % below
        };
        let tinies = [tiny(&CASE_4[3..11]),
            tiny(&[0x80, 0, 1, 1, 1, 0x41, 0x41, 1, 1, 0x10, 1, 0x02, 1, 5, 0x01, 3, 0xC1, 0x41, 0xC2])];
        // Each with its format and how many bytes its check is over.
        let mut bases = Vec::from(tinies.map(|image| (0, image.len() - 1, image)));
        for header in HEADERS {
            bases.push((1, header + 0x1C0, rich(header)));
            bases.push((1, header + 0xD0, signed(header, 0x8001, 0x35)));
        }
        for round in 0..60_000 {
            let (format, covered, mut image) = bases[round % bases.len()].clone();
            for _ in 0..=next(3) {
                let at = next(image.len() as u64) as usize;
                image[at] = if next(2) == 0 { next(256) as u8 } else { image[at] ^ 1 << next(8) };
            }
            if format == 0 {
                image[covered] = crc8(&image[..covered]);
            } else {
                image = seal(image, covered);
            }
            image.truncate(image.len() - next(20) as usize / 19);
            let kinds = next(1 << 17) as u32;
            let (longer, shorter) = (kinds | next(1 << 17) as u32, kinds);
            let (says, long) = list_says(format, &image, longer, 40);
            let (short_says, short) = list_says(format, &image, shorter, 40);
            if says.0 == 0 {
                assert_eq!(says, short_says);
                let alike = |(a, b): (&[u64; 4], &[u64; 4])| a[..3] == b[..3] && a[3] >= b[3];
                assert!(long.iter().zip(&short).all(alike));
                let known = long[..says.1 as usize].iter().map(|row| row[3]).sum();
                assert_eq!(walk_says(format, &image, longer), (0, known));
            } else {
                assert!(long.iter().all(|row| *row == [7, 7, 7, 1]));
            }
        }
    }
}
