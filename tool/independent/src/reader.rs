//! Checking a .dta file: its layout, or its refusal by number, place and words.

use crate::edition::{Edition, EDITIONS, K_WIDTH, OLD_HEADER, RECORD_V, SORT_WIDTH};
use std::fmt::{self, Display};
use std::ops::Range;

/// The largest file length, and the largest N.
const BOUND: u64 = 2_147_483_647;
const MOST_VARIABLES: u64 = 32_767;
const MOST_ENTRIES: u64 = 65_536;
const MOST_LABEL_TEXT: u64 = 5_308_416;

/// Why a file is refused, and where.
#[derive(Clone, Debug, PartialEq, Eq)]
pub struct Refusal {
    /// 1 to 13, by the paper's table.
    pub number: u8,
    /// Where the rule is broken, counted from 0.
    pub place: u64,
    /// What is wrong there. Variables, observations, entries and blocks are counted from 1.
    pub what: String,
}

const TOO_LONG: u8 = 1;
const NOT_DTA: u8 = 2;
const CUT: u8 = 3;
const WRONG_TAG: u8 = 4;
const HEADER: u8 = 5;
const TYPE: u8 = 6;
const TEXT: u8 = 7;
const SORT: u8 = 8;
const EXPANSION: u8 = 9;
const MAP: u8 = 10;
const STRL: u8 = 11;
const LABEL: u8 = 12;
const TAIL: u8 = 13;

fn refuse<T>(number: u8, place: u64, what: impl Into<String>) -> Result<T, Refusal> {
    let what = what.into();
    Err(Refusal {
        number,
        place,
        what,
    })
}

/// What an accepted file is, and where its parts start.
#[derive(Clone, Debug, PartialEq, Eq)]
pub struct Layout {
    /// 113, 114, 115, 117 or 118.
    pub edition: u8,
    /// 1 most significant byte first, 2 least.
    pub byte_order: u8,
    pub k: u16,
    pub n: u32,
    /// Header, map, types, names, sort list, formats, label-set names, variable labels,
    /// characteristics, data, strLs, value labels, end tag, end of file.
    pub positions: [u64; 14],
}

/// The layout of an accepted file, or the refusal's number.
pub fn check(file: &[u8]) -> Result<Layout, u8> {
    explain(file).map_err(|refusal| refusal.number)
}

/// As `check`, with the place and the words of a refusal.
pub fn explain(file: &[u8]) -> Result<Layout, Refusal> {
    if file.len() as u64 > BOUND {
        return refuse(
            TOO_LONG,
            BOUND,
            "the file is longer than 2,147,483,647 bytes",
        );
    }
    match EDITIONS.iter().find(|edition| begins(file, edition)) {
        Some(edition) if edition.tagged => check_tagged(file, edition),
        Some(edition) => check_old(file, edition),
        None => refuse(NOT_DTA, 0, other_beginning(file)),
    }
}

/// Whether a file starts as one of that edition does.
fn begins(file: &[u8], edition: &Edition) -> bool {
    match edition.tagged {
        true => file.starts_with(edition.opening().as_bytes()),
        false => file.first() == Some(&edition.number),
    }
}

/// What is wrong with a file that starts as one of no edition.
fn other_beginning(file: &[u8]) -> String {
    let what = "the file starts with none of bytes 113, 114, 115 and the 41 bytes \
                <stata_dta><header><release>117</release>, or the same with 118";
    match release(file) {
        Some(release) => format!("{what}; its release is {release}, which isn't read"),
        None => what.to_string(),
    }
}

/// The digits of a tagged file of another edition.
fn release(file: &[u8]) -> Option<&str> {
    let rest = file.strip_prefix(b"<stata_dta><header><release>")?;
    let digits = rest
        .get(..3)
        .filter(|digits| digits.iter().all(u8::is_ascii_digit))?;
    rest[3..]
        .starts_with(b"</release>")
        .then(|| std::str::from_utf8(digits).unwrap_or_default())
}

/// `edition MSF|LSF K N length`, or `refused NUMBER`.
pub fn line(file: &[u8]) -> String {
    line_of(&check(file), file.len())
}

/// The line of a file of that length with that verdict.
pub fn line_of(verdict: &Result<Layout, u8>, length: usize) -> String {
    match verdict {
        Ok(layout) => {
            let order = if layout.byte_order == 1 { "MSF" } else { "LSF" };
            format!(
                "{} {} {} {} {}",
                layout.edition, order, layout.k, layout.n, length
            )
        }
        Err(number) => format!("refused {number}"),
    }
}

// The cursor.

/// Some bytes of the file, and where they start.
#[derive(Clone, Copy)]
struct Part<'a> {
    start: u64,
    bytes: &'a [u8],
}

impl<'a> Part<'a> {
    fn part(self, range: Range<usize>) -> Part<'a> {
        Part {
            start: self.start + range.start as u64,
            bytes: &self.bytes[range],
        }
    }

    /// Items of that width, counted from 1.
    fn items(self, width: usize) -> impl Iterator<Item = (u64, Part<'a>)> {
        let starts = (self.start..).step_by(width);
        let items = starts.zip(self.bytes.chunks_exact(width));
        (1..).zip(items.map(|(start, bytes)| Part { start, bytes }))
    }

    fn number(self, order: ByteOrder) -> u64 {
        order.number(self.bytes)
    }
}

/// A place in the file, from which bytes are taken.
#[derive(Clone, Copy)]
struct Cursor<'a> {
    file: &'a [u8],
    at: usize,
}

impl<'a> Cursor<'a> {
    fn position(&self) -> u64 {
        self.at as u64
    }

    fn rest(&self) -> &'a [u8] {
        &self.file[self.at..]
    }

    fn at_end(&self) -> bool {
        self.rest().is_empty()
    }

    /// What needs the bytes is said with its verb, such as `the names need`.
    fn take(&mut self, length: u64, needs: impl Display) -> Result<Part<'a>, Refusal> {
        let start = self.position();
        let rest = self.rest();
        if length > rest.len() as u64 {
            let remain = match rest.len() {
                1 => "1 remains".to_string(),
                remaining => format!("{remaining} remain"),
            };
            let what = format!("{needs} {}, {remain}", Bytes(length));
            return refuse(CUT, start, what);
        }
        let length = length as usize;
        self.at += length;
        Ok(Part {
            start,
            bytes: &rest[..length],
        })
    }

    /// Steps over a tag that is due.
    fn tag(&mut self, tag: &str) -> Result<(), Refusal> {
        self.due(tag, format_args!("the tag {tag} is due here"))
    }

    /// Steps over the tag that is due where no further item is next.
    fn tag_after(&mut self, mark: &str, tag: &str) -> Result<(), Refusal> {
        self.due(tag, format_args!("{mark} or the tag {tag} is due here"))
    }

    fn due(&mut self, tag: &str, what: impl Display) -> Result<(), Refusal> {
        let found = self.take(tag.len() as u64, format_args!("the tag {tag} needs"))?;
        if found.bytes == tag.as_bytes() {
            Ok(())
        } else {
            refuse(WRONG_TAG, found.start, what.to_string())
        }
    }

    /// Steps over a mark if it is next.
    fn mark(&mut self, mark: &str) -> bool {
        let next = self.rest().starts_with(mark.as_bytes());
        if next {
            self.at += mark.len();
        }
        next
    }
}

/// `1 byte`, `2 bytes`.
struct Bytes(u64);

impl Display for Bytes {
    fn fmt(&self, to: &mut fmt::Formatter) -> fmt::Result {
        match self.0 {
            1 => write!(to, "1 byte"),
            count => write!(to, "{count} bytes"),
        }
    }
}

#[derive(Clone, Copy, PartialEq, Eq)]
enum ByteOrder {
    Msf,
    Lsf,
}

impl ByteOrder {
    /// The unsigned number in at most 8 bytes.
    fn number(self, bytes: &[u8]) -> u64 {
        let join = |number: u64, byte: &u8| number << 8 | u64::from(*byte);
        match self {
            ByteOrder::Msf => bytes.iter().fold(0, join),
            ByteOrder::Lsf => bytes.iter().rev().fold(0, join),
        }
    }

    fn code(self) -> u8 {
        match self {
            ByteOrder::Msf => 1,
            ByteOrder::Lsf => 2,
        }
    }
}

// Rules shared by the editions.

const TYPES_NEED: &str = "the variable types need";
const OBSERVATIONS_NEED: &str = "the observations need";
const FORMAT: &str = "display format";
const LABEL_SET_NAME: &str = "label-set name";
const VARIABLE_LABEL: &str = "variable label";

/// What a header says that the rest is read by.
#[derive(Clone, Copy)]
struct Header {
    order: ByteOrder,
    k: u64,
    n: u64,
}

impl Header {
    fn layout(self, edition: &Edition, positions: [u64; 14]) -> Layout {
        Layout {
            edition: edition.number,
            byte_order: self.order.code(),
            k: self.k as u16,
            n: self.n as u32,
            positions,
        }
    }
}

fn has_zero(bytes: &[u8]) -> bool {
    bytes.contains(&0)
}

fn check_k(field: Part, order: ByteOrder) -> Result<u64, Refusal> {
    let k = field.number(order);
    if k > MOST_VARIABLES {
        let what = format!("K is {k}, and may be at most 32,767");
        return refuse(HEADER, field.start, what);
    }
    Ok(k)
}

fn check_n(field: Part, order: ByteOrder, k: u64) -> Result<u64, Refusal> {
    let n = field.number(order);
    if n > BOUND {
        let what = format!("N is {n}, and may be at most 2,147,483,647");
        return refuse(HEADER, field.start, what);
    }
    if k == 0 && n > 0 {
        let what = format!("N is {n}, and must be 0 where K is 0");
        return refuse(HEADER, field.start, what);
    }
    Ok(n)
}

fn refuse_type<T>(variable: u64, field: Part, code: u64) -> Result<T, Refusal> {
    let what = format!("variable {variable} has the unknown type code {code}");
    refuse(TYPE, field.start, what)
}

/// A text has a zero.
fn check_text(field: Part, name: impl Display) -> Result<(), Refusal> {
    if has_zero(field.bytes) {
        return Ok(());
    }
    let width = field.bytes.len();
    let what = format!("{name} has no zero byte in its {width} bytes");
    refuse(TEXT, field.start, what)
}

/// A name is a text that isn't empty.
fn check_name(field: Part, owner: impl Display) -> Result<(), Refusal> {
    if field.bytes[0] == 0 {
        let what = format!("the name of {owner} is empty");
        return refuse(TEXT, field.start, what);
    }
    check_text(field, format_args!("the name of {owner}"))
}

/// The widths of names, of display formats and of variable labels.
fn text_widths(edition: &Edition) -> [u64; 3] {
    [edition.name, edition.format, edition.variable_label].map(|width| width as u64)
}

/// A text of each variable.
fn check_texts(cursor: &mut Cursor, k: u64, width: u64, name: &str) -> Result<(), Refusal> {
    let fields = cursor.take(width * k, format_args!("the {name}s need"))?;
    for (variable, field) in fields.items(width as usize) {
        check_text(field, format_args!("the {name} of variable {variable}"))?;
    }
    Ok(())
}

/// The name of each variable.
fn check_names(cursor: &mut Cursor, k: u64, width: u64) -> Result<(), Refusal> {
    let fields = cursor.take(width * k, "the names need")?;
    for (variable, field) in fields.items(width as usize) {
        check_name(field, format_args!("variable {variable}"))?;
    }
    Ok(())
}

/// Distinct variable numbers up to the first zero, which must exist.
fn check_sort_list(cursor: &mut Cursor, k: u64, order: ByteOrder) -> Result<(), Refusal> {
    let list = cursor.take(SORT_WIDTH as u64 * (k + 1), "the sort list needs")?;
    let mut seen = vec![false; k as usize + 1];
    let end = SORT_WIDTH * k as usize;
    for (number, entry) in list.part(0..end).items(SORT_WIDTH) {
        let variable = entry.number(order);
        if variable == 0 {
            return Ok(());
        }
        if variable > k {
            let what = format!("sort entry {number} is {variable}, and K is {k}");
            return refuse(SORT, entry.start, what);
        }
        if seen[variable as usize] {
            let what = format!("sort entry {number} is {variable} a second time");
            return refuse(SORT, entry.start, what);
        }
        seen[variable as usize] = true;
    }
    // All K variables are listed by now.
    let last = list.part(end..end + SORT_WIDTH);
    match last.number(order) {
        0 => Ok(()),
        variable => {
            let what = format!("the sort list has no zero entry, and its last is {variable}");
            refuse(SORT, last.start, what)
        }
    }
}

/// One label block without its tags.
fn check_label_block(
    cursor: &mut Cursor,
    edition: &Edition,
    order: ByteOrder,
    block: u64,
) -> Result<(), Refusal> {
    let head = cursor.take(
        edition.block_head() as u64,
        format_args!("the length, name and padding of label block {block} need"),
    )?;
    check_name(
        head.part(4..4 + edition.name),
        format_args!("label block {block}"),
    )?;
    let table = cursor.take(
        head.part(0..4).number(order),
        format_args!("the table of label block {block} needs"),
    )?;
    check_label_table(table, order).map_err(|wrong| Refusal {
        what: format!("label block {block}: {}", wrong.what),
        ..wrong
    })
}

fn check_label_table(table: Part, order: ByteOrder) -> Result<(), Refusal> {
    let length = table.bytes.len() as u64;
    if length < 8 {
        let what = format!("the table has {}, and needs at least 8", Bytes(length));
        return refuse(LABEL, table.start, what);
    }
    let n = table.part(0..4).number(order);
    if n > MOST_ENTRIES {
        let what = format!("the table has {n} entries, and may have at most 65,536");
        return refuse(LABEL, table.start, what);
    }
    let text_length = table.part(4..8).number(order);
    if text_length > MOST_LABEL_TEXT {
        let what = format!("the text length is {text_length}, and may be at most 5,308,416");
        return refuse(LABEL, table.start + 4, what);
    }
    let due = 8 + 8 * n + text_length;
    if length != due {
        let what = format!(
            "the table has {}, and needs {due} (entries {n}, text length {text_length})",
            Bytes(length)
        );
        return refuse(LABEL, table.start, what);
    }
    let values = 8 + 4 * n as usize;
    let text = values + 4 * n as usize;
    check_offsets(table.part(8..values), &table.bytes[text..], order)?;
    check_values(table.part(values..text), order)
}

/// A zero at or after an offset is there exactly up to the last zero.
fn check_offsets(offsets: Part, text: &[u8], order: ByteOrder) -> Result<(), Refusal> {
    let last_zero = text.iter().rposition(|byte| *byte == 0);
    for (number, entry) in offsets.items(4) {
        let offset = entry.number(order);
        if last_zero.is_some_and(|last| offset <= last as u64) {
            continue;
        }
        let length = text.len() as u64;
        let wrong = if offset < length {
            "with no zero byte at or after it".to_string()
        } else {
            format!("and the text has {}", Bytes(length))
        };
        let what = format!("the offset of entry {number} is {offset}, {wrong}");
        return refuse(LABEL, entry.start, what);
    }
    Ok(())
}

fn check_values(values: Part, order: ByteOrder) -> Result<(), Refusal> {
    let signed = |entry: Part| entry.number(order) as u32 as i32;
    for ((before, lower), (number, entry)) in values.items(4).zip(values.items(4).skip(1)) {
        let (lower, value) = (signed(lower), signed(entry));
        if value <= lower {
            let what = format!(
                "the value of entry {number} is {value}, not above the {lower} of entry {before}"
            );
            return refuse(LABEL, entry.start, what);
        }
    }
    Ok(())
}

// Editions 113, 114 and 115.

fn check_old(file: &[u8], edition: &Edition) -> Result<Layout, Refusal> {
    let mut cursor = Cursor { file, at: 0 };
    let mut positions = [0; 14];
    let header = old_header(cursor.take(OLD_HEADER as u64, "the header needs")?)?;
    let Header { order, k, n } = header;
    let [name, format, label] = text_widths(edition);

    positions[1] = cursor.position();
    positions[2] = cursor.position();
    let width = old_observation_width(cursor.take(k, TYPES_NEED)?)?;
    positions[3] = cursor.position();
    check_names(&mut cursor, k, name)?;
    positions[4] = cursor.position();
    check_sort_list(&mut cursor, k, order)?;
    positions[5] = cursor.position();
    check_texts(&mut cursor, k, format, FORMAT)?;
    positions[6] = cursor.position();
    check_texts(&mut cursor, k, name, LABEL_SET_NAME)?;
    positions[7] = cursor.position();
    check_texts(&mut cursor, k, label, VARIABLE_LABEL)?;
    positions[8] = cursor.position();
    skip_expansion_blocks(&mut cursor, order)?;
    positions[9] = cursor.position();
    cursor.take(n * width, OBSERVATIONS_NEED)?;
    positions[10] = cursor.position();
    positions[11] = cursor.position();
    let mut block = 1;
    while !cursor.at_end() {
        check_label_block(&mut cursor, edition, order, block)?;
        block += 1;
    }
    positions[12] = cursor.position();
    positions[13] = cursor.position();
    Ok(header.layout(edition, positions))
}

fn old_header(header: Part) -> Result<Header, Refusal> {
    let order = match header.bytes[1] {
        1 => ByteOrder::Msf,
        2 => ByteOrder::Lsf,
        code => {
            let what = format!("the byte order is {code}, and must be 1 or 2");
            return refuse(HEADER, header.start + 1, what);
        }
    };
    let file_type = header.bytes[2];
    if file_type != 1 {
        let what = format!("the file type is {file_type}, and must be 1");
        return refuse(HEADER, header.start + 2, what);
    }
    let k = check_k(header.part(4..6), order)?;
    let n = check_n(header.part(6..10), order, k)?;
    let label = header.part(10..91);
    if !has_zero(label.bytes) {
        let what = "the dataset label has no zero byte in its 81 bytes";
        return refuse(HEADER, label.start, what);
    }
    check_old_stamp(header.part(91..109))?;
    Ok(Header { order, k, n })
}

fn check_old_stamp(stamp: Part) -> Result<(), Refusal> {
    let length = stamp.bytes.iter().take_while(|byte| **byte != 0).count();
    if (1..17).contains(&length) {
        let length = Bytes(length as u64);
        let what = format!("the stamp has {length} before its first zero, and must have 0 or 17");
        return refuse(HEADER, stamp.start, what);
    }
    let last = stamp.bytes[17];
    if last != 0 {
        let what = format!("byte 18 of the stamp is {last}, and must be zero");
        return refuse(HEADER, stamp.start, what);
    }
    Ok(())
}

fn old_observation_width(types: Part) -> Result<u64, Refusal> {
    let mut width = 0;
    for (variable, code) in types.items(1) {
        width += match code.bytes[0] {
            text @ 1..=244 => u64::from(text),
            251 => 1,
            252 => 2,
            253 | 254 => 4,
            255 => 8,
            unknown => return refuse_type(variable, code, u64::from(unknown)),
        };
    }
    Ok(width)
}

fn skip_expansion_blocks(cursor: &mut Cursor, order: ByteOrder) -> Result<(), Refusal> {
    for block in 1_u64.. {
        let head = cursor.take(
            5,
            format_args!("the type and length of expansion block {block} need"),
        )?;
        let length = head.part(1..5).number(order);
        match (head.bytes[0], length) {
            (0, 0) => break,
            (0, _) => {
                let what =
                    format!("expansion block {block} is of type 0 with length {length}, not 0");
                return refuse(EXPANSION, head.start, what);
            }
            _ => cursor.take(
                length,
                format_args!("the contents of expansion block {block} need"),
            )?,
        };
    }
    Ok(())
}

// Editions 117 and 118.

fn check_tagged(file: &[u8], edition: &Edition) -> Result<Layout, Refusal> {
    let mut cursor = Cursor {
        file,
        at: edition.opening().len(),
    };
    let header = tagged_header(&mut cursor, edition)?;
    let Header { order, k, n } = header;
    let mut parts = TaggedParts {
        cursor,
        positions: vec![0],
    };
    let map = parts.part("map", |cursor| cursor.take(14 * 8, "the map needs"))?;
    let variables = parts.part("variable_types", |cursor| {
        Variables::new(cursor.take(edition.code() as u64 * k, TYPES_NEED)?, order)
    })?;
    check_lists(&mut parts, edition, header)?;
    parts.items("characteristics", "<ch>", |cursor| {
        skip_characteristics(cursor, order)
    })?;
    let cells = parts.part("data", |cursor| {
        cursor.take(n * variables.width, OBSERVATIONS_NEED)
    })?;
    let data = Data {
        edition,
        cells,
        order,
        n,
        variables,
    };
    parts.items("strls", "GSO", |cursor| check_strls(cursor, &data))?;
    parts.items("value_labels", "<lbl>", |cursor| {
        check_label_blocks(cursor, edition, order)
    })?;
    let positions = parts.end()?;
    check_map(map, &positions, order)?;
    Ok(header.layout(edition, positions))
}

/// The parts after the header, and where each starts.
struct TaggedParts<'a> {
    cursor: Cursor<'a>,
    positions: Vec<u64>,
}

impl<'a> TaggedParts<'a> {
    /// The next part, between its tags.
    fn part<T>(
        &mut self,
        tag: &str,
        contents: impl FnOnce(&mut Cursor<'a>) -> Result<T, Refusal>,
    ) -> Result<T, Refusal> {
        let found = self.opened(tag, contents)?;
        self.cursor.tag(&format!("</{tag}>"))?;
        Ok(found)
    }

    /// As `part`; where its closing tag is due, an item with that mark might stand, too.
    fn items(
        &mut self,
        tag: &str,
        mark: &str,
        contents: impl FnOnce(&mut Cursor<'a>) -> Result<(), Refusal>,
    ) -> Result<(), Refusal> {
        self.opened(tag, contents)?;
        self.cursor.tag_after(mark, &format!("</{tag}>"))
    }

    fn opened<T>(
        &mut self,
        tag: &str,
        contents: impl FnOnce(&mut Cursor<'a>) -> Result<T, Refusal>,
    ) -> Result<T, Refusal> {
        self.positions.push(self.cursor.position());
        self.cursor.tag(&format!("<{tag}>"))?;
        contents(&mut self.cursor)
    }

    /// The last tag and the end of the file; all positions.
    fn end(mut self) -> Result<[u64; 14], Refusal> {
        self.positions.push(self.cursor.position());
        self.cursor.tag("</stata_dta>")?;
        self.positions.push(self.cursor.position());
        check_end(&self.cursor)?;
        Ok(self.positions.try_into().expect("fourteen positions"))
    }
}

/// From the names to the variable labels.
fn check_lists(parts: &mut TaggedParts, edition: &Edition, header: Header) -> Result<(), Refusal> {
    let Header { order, k, .. } = header;
    let [name, format, label] = text_widths(edition);
    parts.part("varnames", |cursor| check_names(cursor, k, name))?;
    parts.part("sortlist", |cursor| check_sort_list(cursor, k, order))?;
    parts.part("formats", |cursor| check_texts(cursor, k, format, FORMAT))?;
    parts.part("value_label_names", |cursor| {
        check_texts(cursor, k, name, LABEL_SET_NAME)
    })?;
    parts.part("variable_labels", |cursor| {
        check_texts(cursor, k, label, VARIABLE_LABEL)
    })
}

fn check_label_blocks(
    cursor: &mut Cursor,
    edition: &Edition,
    order: ByteOrder,
) -> Result<(), Refusal> {
    let mut block = 1;
    while cursor.mark("<lbl>") {
        check_label_block(cursor, edition, order, block)?;
        cursor.tag("</lbl>")?;
        block += 1;
    }
    Ok(())
}

/// From behind the 41 bytes to the map.
fn tagged_header(cursor: &mut Cursor, edition: &Edition) -> Result<Header, Refusal> {
    let order = byte_order_tagged(cursor)?;
    cursor.tag("<K>")?;
    let k = check_k(cursor.take(K_WIDTH as u64, "K needs")?, order)?;
    cursor.tag("</K>")?;
    cursor.tag("<N>")?;
    let n = check_n(cursor.take(edition.n as u64, "N needs")?, order, k)?;
    cursor.tag("</N>")?;
    cursor.tag("<label>")?;
    let most = edition.most_label as u64;
    let length = cursor.take(
        edition.label_length as u64,
        "the length of the dataset label needs",
    )?;
    let rule = format!("at most {most}");
    let right = length.number(order) <= most;
    short_text(cursor, "dataset label", length, order, right, &rule)?;
    cursor.tag("</label>")?;
    cursor.tag("<timestamp>")?;
    let length = cursor.take(1, "the length of the stamp needs")?;
    let right = [0, 17].contains(&length.number(order));
    short_text(cursor, "stamp", length, order, right, "0 or 17")?;
    cursor.tag("</timestamp>")?;
    cursor.tag("</header>")?;
    Ok(Header { order, k, n })
}

fn byte_order_tagged(cursor: &mut Cursor) -> Result<ByteOrder, Refusal> {
    cursor.tag("<byteorder>")?;
    let field = cursor.take(3, "the byte order needs")?;
    let order = match field.bytes {
        b"MSF" => ByteOrder::Msf,
        b"LSF" => ByteOrder::Lsf,
        other => {
            let other = other.escape_ascii();
            let what = format!("the byte order is \"{other}\", and must be MSF or LSF");
            return refuse(HEADER, field.start, what);
        }
    };
    cursor.tag("</byteorder>")?;
    Ok(order)
}

/// The dataset label or the stamp: a length that is right or not, then bytes none of which is zero.
fn short_text(
    cursor: &mut Cursor,
    name: &str,
    field: Part,
    order: ByteOrder,
    right: bool,
    rule: &str,
) -> Result<(), Refusal> {
    let length = field.number(order);
    if !right {
        let what = format!("the length of the {name} is {length}, and must be {rule}");
        return refuse(HEADER, field.start, what);
    }
    let text = cursor.take(length, format_args!("the {name} needs"))?;
    if let Some(zero) = text.bytes.iter().position(|byte| *byte == 0) {
        let what = format!("byte {} of the {name} is zero, and none may be", zero + 1);
        return refuse(HEADER, field.start, what);
    }
    Ok(())
}

fn skip_characteristics(cursor: &mut Cursor, order: ByteOrder) -> Result<(), Refusal> {
    let mut number: u64 = 1;
    while cursor.mark("<ch>") {
        let length = cursor.take(
            4,
            format_args!("the length of characteristic {number} needs"),
        )?;
        cursor.take(
            length.number(order),
            format_args!("the contents of characteristic {number} need"),
        )?;
        cursor.tag("</ch>")?;
        number += 1;
    }
    Ok(())
}

fn check_end(cursor: &Cursor) -> Result<(), Refusal> {
    let what = match cursor.rest().len() {
        0 => return Ok(()),
        1 => "1 byte follows </stata_dta>".to_string(),
        length => format!("{length} bytes follow </stata_dta>"),
    };
    refuse(TAIL, cursor.position(), what)
}

/// What each item of the map gives the place of.
const MAPPED: [&str; 14] = [
    "the file starts",
    "the map starts",
    "the variable types start",
    "the names start",
    "the sort list starts",
    "the display formats start",
    "the label-set names start",
    "the variable labels start",
    "the characteristics start",
    "the data start",
    "the long strings start",
    "the value labels start",
    "the tag </stata_dta> starts",
    "the file ends",
];

fn check_map(map: Part, positions: &[u64; 14], order: ByteOrder) -> Result<(), Refusal> {
    for ((number, item), (position, mapped)) in map.items(8).zip(positions.iter().zip(MAPPED)) {
        let said = item.number(order);
        if said != *position {
            let what = format!("map item {number} says {said}, and {mapped} at {position}");
            return refuse(MAP, item.start, what);
        }
    }
    Ok(())
}

const STRL_TYPE: u64 = 32768;

/// The variables of a tagged file, as far as strLs need them.
struct Variables {
    /// For each variable, its place in an observation if it is strL.
    strl_places: Vec<Option<u64>>,
    /// The strL variables, ascending: number and place in an observation.
    strls: Vec<(u64, u64)>,
    /// Bytes of an observation.
    width: u64,
}

impl Variables {
    fn new(types: Part, order: ByteOrder) -> Result<Variables, Refusal> {
        let mut variables = Variables {
            strl_places: Vec::new(),
            strls: Vec::new(),
            width: 0,
        };
        for (number, field) in types.items(2) {
            let code = field.number(order);
            let place = variables.width;
            let is_strl = code == STRL_TYPE;
            variables.strl_places.push(is_strl.then_some(place));
            if is_strl {
                variables.strls.push((number, place));
            }
            variables.width += match code {
                1..=2045 => code,
                STRL_TYPE => 8,
                65526 => 8,
                65527 | 65528 => 4,
                65529 => 2,
                65530 => 1,
                _ => return refuse_type(number, field, code),
            };
        }
        Ok(variables)
    }
}

// StrLs.

/// (v,o): a variable and an observation, counted from 1.
#[derive(Clone, Copy, PartialEq, Eq)]
struct Reference {
    v: u64,
    o: u64,
}

impl Reference {
    const EMPTY: Reference = Reference { v: 0, o: 0 };

    /// Two numbers beside each other, the first of that width.
    fn read(bytes: &[u8], v_width: usize, order: ByteOrder) -> Reference {
        let (v, o) = bytes.split_at(v_width);
        Reference {
            v: order.number(v),
            o: order.number(o),
        }
    }

    /// At or before that cell in data order.
    fn not_after(self, cell: Reference) -> bool {
        self.o < cell.o || self.o == cell.o && self.v <= cell.v
    }
}

impl Display for Reference {
    fn fmt(&self, to: &mut fmt::Formatter) -> fmt::Result {
        write!(to, "({},{})", self.v, self.o)
    }
}

struct Data<'a> {
    edition: &'a Edition,
    cells: Part<'a>,
    order: ByteOrder,
    n: u64,
    variables: Variables,
}

impl Data<'_> {
    /// The bytes of the cell at that place in that observation.
    fn cell(&self, o: u64, place: u64) -> Part<'_> {
        let start = ((o - 1) * self.variables.width + place) as usize;
        let width = self.edition.cell_v + self.edition.cell_o;
        self.cells.part(start..start + width)
    }

    fn read(&self, cell: Part) -> Reference {
        Reference::read(cell.bytes, self.edition.cell_v, self.order)
    }

    /// What the cell holds; nothing where there is no such cell of a strL.
    fn reference(&self, cell: Reference) -> Option<Reference> {
        if cell.v == 0 || cell.o == 0 || cell.o > self.n {
            return None;
        }
        let place = (*self.variables.strl_places.get(cell.v as usize - 1)?)?;
        Some(self.read(self.cell(cell.o, place)))
    }

    fn names_itself(&self, cell: Reference) -> bool {
        self.reference(cell) == Some(cell)
    }
}

struct Record<'a> {
    /// Of its `GSO`.
    start: u64,
    name: Reference,
    kind: u8,
    contents: &'a [u8],
}

/// The records from a place on.
#[derive(Clone)]
struct Records<'a> {
    edition: &'a Edition,
    cursor: Cursor<'a>,
    order: ByteOrder,
    /// Of the next one, counted from 1.
    number: u64,
}

impl<'a> Records<'a> {
    /// The next record, if one is next.
    fn next(&mut self) -> Result<Option<Record<'a>>, Refusal> {
        let start = self.cursor.position();
        if !self.cursor.mark("GSO") {
            return Ok(None);
        }
        let number = self.number;
        self.number += 1;
        let head = self.cursor.take(
            self.edition.record_head() as u64,
            format_args!("the reference, kind and length of record {number} need"),
        )?;
        let kind = RECORD_V + self.edition.record_o;
        let contents = self.cursor.take(
            head.part(kind + 1..kind + 5).number(self.order),
            format_args!("the contents of record {number} need"),
        )?;
        Ok(Some(Record {
            start,
            name: Reference::read(&head.bytes[..kind], RECORD_V, self.order),
            kind: head.bytes[kind],
            contents: contents.bytes,
        }))
    }
}

/// All records are walked over before the first is judged. A wrong cell is named before a wrong record.
fn check_strls<'a>(cursor: &mut Cursor<'a>, data: &Data<'a>) -> Result<(), Refusal> {
    let mut records = Records {
        edition: data.edition,
        cursor: *cursor,
        order: data.order,
        number: 1,
    };
    let mut walk = records.clone();
    while walk.next()?.is_some() {}
    *cursor = walk.cursor;
    let mut judged = Ok(());
    for o in 1..=data.n {
        for &(v, place) in &data.variables.strls {
            let cell = Reference { v, o };
            let reference = check_strl_cell(cell, data.cell(o, place), data)?;
            if reference == cell && judged.is_ok() {
                judged = check_record(cell, &mut records, data);
            }
        }
    }
    judged?;
    match records.next()? {
        Some(record) => refuse_record(&record, data),
        None => Ok(()),
    }
}

/// A reference that isn't empty names a cell that names itself, at or before its own.
fn check_strl_cell(cell: Reference, field: Part, data: &Data) -> Result<Reference, Refusal> {
    let reference = data.read(field);
    if reference == Reference::EMPTY {
        return Ok(reference);
    }
    let wrong = match data.reference(reference) {
        _ if !reference.not_after(cell) => "comes after it",
        Some(held) if held == reference => return Ok(reference),
        Some(_) => "doesn't hold itself",
        None => "is no cell of a strL variable",
    };
    let Reference { v, o } = cell;
    let what = format!("cell (variable {v}, observation {o}) refers to {reference}, which {wrong}");
    refuse(STRL, field.start, what)
}

/// A cell that names itself has the next record.
fn check_record(cell: Reference, records: &mut Records, data: &Data) -> Result<(), Refusal> {
    let due = records.cursor.position();
    let Some(record) = records.next()? else {
        return refuse(STRL, due, format!("the record of {cell} is missing"));
    };
    let name = record.name;
    if name == cell {
        return check_contents(&record);
    }
    if cell.not_after(name) && data.names_itself(name) {
        let what = format!("the record of {cell} is due here, before that of {name}");
        return refuse(STRL, record.start, what);
    }
    refuse_record(&record, data)
}

/// A record for which no cell is left.
fn refuse_record(record: &Record, data: &Data) -> Result<(), Refusal> {
    let name = record.name;
    let what = if data.names_itself(name) {
        format!("a second record of {name}")
    } else {
        format!("a record of {name}, which no cell asks for")
    };
    refuse(STRL, record.start, what)
}

fn check_contents(record: &Record) -> Result<(), Refusal> {
    let name = record.name;
    let what = match (record.kind, record.contents) {
        (129, _) => return Ok(()),
        (130, [] | [_]) => format!(
            "the text record of {name} has {}, and needs at least 2",
            Bytes(record.contents.len() as u64)
        ),
        (130, [text @ .., 0]) if !has_zero(text) => return Ok(()),
        (130, _) => format!("the text record of {name} doesn't end with its only zero"),
        (kind, _) => format!("the record of {name} has kind {kind}, and must have 129 or 130"),
    };
    refuse(STRL, record.start, what)
}
