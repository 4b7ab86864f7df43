//! Rewriting against the independent writer: number, length and every byte of the output, on the files of tests/, generated and
//! damaged ones, and what is read back.
//!
//! A stand-in is compared as well, and wrong ones have to be found.
//! DTA_REWRITTEN is how many files are generated or taken, each with damaged copies; DTA_SEED is where the seeds start.

use independent::damage::Source;
use independent::dataset::{dataset, outline, Block, Cell, Dataset, Entry, Record, Type, Variable};
use independent::dead::dead;
use independent::edition::{Edition, NUMBERS};
use independent::generate::Order;
use independent::parts::parts;
use independent::random::Random;
use independent::stand_in::{self, Rewrite};
use independent::writer::{held, write, Target, Unheld, TARGETS};
use independent::{check, generate, proved, stated, Layout};
use std::collections::{BTreeMap, BTreeSet};
use std::io::Write;

const REWRITTEN: u64 = 1_500;
/// Damaged copies of one source.
const COPIES: u64 = 8;
/// Bytes before and behind the output, which belong to no one.
const MARGIN: usize = 16;
const BOUND: u64 = 2_147_483_647;

/// Each kind of answer and of accepted files with dead bytes, and how often it has to occur so that the test says something.
const KINDS: [(&str, u64); 37] = [
    ("done", 10_000),
    ("14", 10_000),
    ("15 by target", 2_000),
    ("15 by strL alone", 500),
    ("15 by wide text alone", 200),
    ("15 by label alone", 50),
    ("15 by name alone", 50),
    ("15 by format alone", 300),
    ("15 by set alone", 50),
    ("15 by variable label alone", 50),
    ("15 by block name alone", 50),
    ("15 by more than one", 500),
    ("2", 100),
    ("3", 100),
    ("4", 100),
    ("5", 100),
    ("6", 100),
    ("7", 100),
    ("8", 100),
    ("9", 50),
    ("10", 100),
    ("11", 100),
    ("12", 100),
    ("13", 50),
    ("dead Unused", 500),
    ("dead Label", 500),
    ("dead Stamp", 500),
    ("dead Name", 500),
    ("dead Sort", 500),
    ("dead Format", 500),
    ("dead LabelSet", 500),
    ("dead VariableLabel", 500),
    ("dead Skipped", 500),
    ("dead Cell", 500),
    ("dead BlockName", 500),
    ("dead Padding", 500),
    ("dead Text", 200),
];

/// How often each edition has to be rewritten to each.
const EACH_WAY: u64 = 200;

const UNOFFERED_EDITIONS: [u64; 13] = [
    0,
    1,
    112,
    116,
    119,
    255,
    256 + 113,
    256 + 118,
    (1 << 32) + 113,
    (1 << 32) + 114,
    (1 << 32) + 117,
    (1 << 32) + 118,
    u64::MAX,
];
const UNOFFERED_ORDERS: [u64; 6] = [0, 3, 257, (1 << 32) + 1, (1 << 32) + 2, u64::MAX];

/// Edition and byte order of what is not offered.
fn unoffered() -> Vec<(u64, u64)> {
    let mut unoffered = Vec::new();
    for edition in UNOFFERED_EDITIONS {
        unoffered.extend([0, 1, 2].map(|order| (edition, order)));
    }
    for order in UNOFFERED_ORDERS {
        unoffered.extend(NUMBERS.map(|edition| (u64::from(edition), order)));
    }
    unoffered
}

/// The first difference, told; nothing where there is none.
type Compared = Result<(), String>;

struct Comparison<'a> {
    rewrite: &'a Rewrite,
    /// How often each kind occurred.
    counts: BTreeMap<String, u64>,
    /// Bytes without a pattern, from which outputs are filled.
    bytes: Vec<u8>,
    random: Random,
}

impl Comparison<'_> {
    fn new(rewrite: &Rewrite, seed: u64) -> Comparison<'_> {
        let mut random = Random::new(seed);
        Comparison {
            rewrite,
            counts: BTreeMap::new(),
            bytes: random.bytes(1 << 17),
            random,
        }
    }

    fn count(&mut self, kind: &str) {
        *self.counts.entry(kind.to_string()).or_default() += 1;
    }

    /// So many bytes without a pattern, with margins.
    fn filled(&mut self, room: usize) -> Vec<u8> {
        let length = room + 2 * MARGIN;
        while self.bytes.len() < 2 * length {
            let more = self.random.bytes(1 << 17);
            self.bytes.extend(more);
        }
        let start = self.random.below(self.bytes.len() - length + 1);
        self.bytes[start..start + length].to_vec()
    }

    /// One call. Its answer and the whole buffer must be those that are due.
    fn call(
        &mut self,
        file: &[u8],
        (edition, order): (u64, u64),
        room: usize,
        due: Result<&[u8], u8>,
    ) -> Compared {
        let mut buffer = self.filled(room);
        let mut expected = buffer.clone();
        let answer_due = match due {
            Ok(result) => {
                expected[MARGIN..][..result.len()].copy_from_slice(result);
                (0, result.len() as u64)
            }
            Err(number) => (u64::from(number), 0),
        };
        let out = &mut buffer[MARGIN..MARGIN + room];
        let answer = (self.rewrite)(file, edition, order, out);
        let call = || format!("to edition {edition}, order {order}, room {room}");
        if answer != answer_due {
            return Err(format!("{}: {answer:?}, due {answer_due:?}", call()));
        }
        if buffer != expected {
            let differs = |(one, other): (&u8, &u8)| one != other;
            let place = buffer.iter().zip(&expected).position(differs).unwrap();
            return Err(format!(
                "{}: {answer:?}, byte {} of the output is {}, due {}",
                call(),
                place as i64 - MARGIN as i64,
                buffer[place],
                expected[place]
            ));
        }
        Ok(())
    }

    /// Any file: to what is offered, or by its number.
    fn file(&mut self, file: &[u8]) -> Compared {
        match check(file) {
            Ok(layout) => self.accepted(file, &layout),
            Err(number) => self.refused(file, number),
        }
    }

    fn refused(&mut self, file: &[u8], number: u8) -> Compared {
        self.count(&number.to_string());
        let target = match self.random.once_in(3) {
            true => self.random.pick(&unoffered()),
            false => self.random.pick(&TARGETS).numbers(),
        };
        let room = match self.random.below(3) {
            0 => self.random.below(20),
            _ => 2 * file.len() + 1_000,
        };
        self.call(file, target, room, Err(number))
    }

    fn accepted(&mut self, file: &[u8], layout: &Layout) -> Compared {
        let dataset_of_file = dataset(file, layout);
        // The same dataset with other dead bytes.
        let mut shaken = file.to_vec();
        let mut kinds = BTreeSet::new();
        let mut parts = parts(file, layout).parts.into_iter().peekable();
        for place in dead(file, layout) {
            shaken[place] = self.random.byte();
            while parts.next_if(|part| part.end <= place).is_some() {}
            let part = parts.peek().expect("the parts cover the file");
            kinds.insert(format!("dead {:?}", part.kind));
        }
        kinds.iter().for_each(|kind| self.count(kind));
        for target in TARGETS {
            match held(&dataset_of_file, target) {
                Ok(_) => self.held(file, layout, &shaken, &dataset_of_file, target)?,
                Err(reasons) => self.unheld(file, &shaken, &reasons, target)?,
            }
        }
        let target = self.random.pick(&unoffered());
        self.unoffered(file, target)
    }

    fn held(
        &mut self,
        file: &[u8],
        layout: &Layout,
        shaken: &[u8],
        dataset_of_file: &Dataset,
        target: Target,
    ) -> Compared {
        let numbers = target.numbers();
        let result = write(dataset_of_file, target);
        let length = result.len();
        self.count("done");
        let edition = layout.edition;
        self.count(&format!("done from {edition} to {}", target.edition));
        // Just long enough, and longer.
        self.call(file, numbers, length, Ok(&result))?;
        let room = length + self.random.between(1, 300);
        self.call(file, numbers, room, Ok(&result))?;
        self.call(shaken, numbers, room, Ok(&result))?;
        // Too short.
        self.count("14");
        for room in [length - 1, self.random.below(length)] {
            self.call(file, numbers, room, Err(14))?;
        }
        let room = self.random.below(length);
        self.call(shaken, numbers, room, Err(14))?;
        // Read back.
        let found = check(&result).map_err(|number| format!("{target:?} refused: {number}"))?;
        if (u64::from(found.edition), u64::from(found.byte_order)) != numbers {
            return Err(format!("{target:?} isn't that target"));
        }
        if proved::answer(&result) != proved::due(&Ok(found.clone())) {
            return Err(format!("{target:?} is another file to the library"));
        }
        if dataset(&result, &found) != *dataset_of_file {
            return Err(format!("{target:?} is another dataset"));
        }
        // Dead bytes of a result are zero, but for the unused one.
        let dead = dead(&result, &found);
        let unused = !Edition::known(found.edition).tagged;
        let right = |place: &usize| result[*place] == u8::from(unused && *place == 3);
        if !dead.iter().all(right) {
            return Err(format!("{target:?} has dead bytes"));
        }
        // Written again.
        self.call(&result, numbers, length, Ok(&result))
    }

    fn unheld(
        &mut self,
        file: &[u8],
        shaken: &[u8],
        reasons: &[Unheld],
        target: Target,
    ) -> Compared {
        self.count(match reasons {
            [Unheld::Strl] => "15 by strL alone",
            [Unheld::WideText] => "15 by wide text alone",
            [Unheld::LongLabel] => "15 by label alone",
            [Unheld::LongName] => "15 by name alone",
            [Unheld::LongFormat] => "15 by format alone",
            [Unheld::LongSet] => "15 by set alone",
            [Unheld::LongVariableLabel] => "15 by variable label alone",
            [Unheld::LongBlockName] => "15 by block name alone",
            [Unheld::TooLong] => "15 by length alone",
            _ => "15 by more than one",
        });
        for file in [file, shaken] {
            for room in [0, self.random.below(file.len()), 2 * file.len() + 1_000] {
                self.call(file, target.numbers(), room, Err(15))?;
            }
        }
        Ok(())
    }

    /// An accepted file to what is not offered.
    fn unoffered(&mut self, file: &[u8], target: (u64, u64)) -> Compared {
        self.count("15 by target");
        for room in [self.random.below(file.len()), 2 * file.len() + 1_000] {
            self.call(file, target, room, Err(15))?;
        }
        Ok(())
    }
}

fn target(edition: u8, order: Order) -> Target {
    Target { edition, order }
}

fn setting(name: &str, usual: u64) -> u64 {
    match std::env::var(name) {
        Ok(text) => text
            .parse()
            .unwrap_or_else(|_| panic!("{name} isn't a number: {text}")),
        Err(_) => usual,
    }
}

/// A text that another edition's field holds just so, or, where it may be over, one that it doesn't.
fn edge(random: &mut Random, field: usize, over: bool) -> Vec<u8> {
    let length = match over && random.once_in(2) {
        true => random.pick(&[field, field + 1, field + 7]),
        false => random.pick(&[field - 1, field - 2]),
    };
    random.text(length)
}

/// A generated file of 117 or 118 with the widest and longest texts that other editions hold, or longer ones of one or more kinds, and mostly without strLs.
fn at_the_edges(random: &mut Random) -> Vec<u8> {
    let order = random.pick(&[Order::Msf, Order::Lsf]);
    let edition = random.pick(&[117, 118]);
    let file = generate::file_of(random, edition, order);
    let mut dataset = dataset(&file, &check(&file).expect("accepted"));
    if random.once_in(4) || dataset.n > 60 {
        return file;
    }
    let [wide, long] = [0, 1].map(|_| random.once_in(3));
    for variable in &mut dataset.variables {
        if variable.of == Type::Strl {
            variable.of = Type::Text(match wide && random.once_in(2) {
                true => random.pick(&[245, 250, 251, 255, 256, 2045]),
                false => random.pick(&[243, 244]),
            });
        }
        variable.format = edge(random, 12, long);
    }
    without_references(random, &mut dataset);
    if edition == 118 {
        texts_at_the_edges(random, &mut dataset);
    }
    write(&dataset, target(edition, order))
}

/// Texts of full or nearly full width in the place of references.
fn without_references(random: &mut Random, dataset: &mut Dataset) {
    let types: Vec<Type> = dataset.variables.iter().map(|each| each.of).collect();
    for (cell, of) in dataset.cells.iter_mut().zip(types.iter().cycle()) {
        if let Cell::Reference { .. } = cell {
            let width = of.width() as usize;
            let length = random.pick(&[0, width - 1, width]);
            *cell = Cell::Text(random.text(length));
        }
    }
    dataset.records.clear();
}

/// Mostly at most one kind of text is longer than a field of the other editions.
fn texts_at_the_edges(random: &mut Random, dataset: &mut Dataset) {
    let over = random.below(9);
    let two = random.once_in(6);
    let is = |kind: usize| over == kind || two && (over + 1) % 6 == kind;
    dataset.label = edge(random, 81, is(0));
    for variable in &mut dataset.variables {
        variable.name = edge(random, 33, is(1));
        variable.set = edge(random, 33, is(2));
        variable.label = edge(random, 81, is(3));
        if is(4) && random.once_in(2) {
            variable.format = edge(random, 49, true);
        }
    }
    for block in &mut dataset.blocks {
        block.name = edge(random, 33, is(5));
    }
}

/// The files of tests/, then so many sources with damaged copies. What was compared, up to the first difference.
fn compare(rewrite: &Rewrite, stated_files: &[stated::Stated], sources: u64) -> Outcome {
    let first = setting("DTA_SEED", 0);
    let comparison = &mut Comparison::new(rewrite, first);
    let mut difference = None;
    let mut told = |compared: Compared, name: String, file: &[u8]| {
        if let (Err(difference_of_file), None) = (compared, &difference) {
            difference = Some((format!("{name}: {difference_of_file}"), file.to_vec()));
        }
        difference.is_some()
    };
    let mut accepted = Vec::new();
    for stated in stated_files {
        let (file, name) = (&stated.file, &stated.name);
        if told(comparison.file(file), name.clone(), file) {
            break;
        }
        let verdict = check(file);
        // To everything that isn't offered.
        for target in unoffered() {
            let compared = match &verdict {
                Ok(_) if file.len() < 3_000 => comparison.unoffered(file, target),
                Err(number) if file.len() < 200 => comparison.call(file, target, 50, Err(*number)),
                _ => Ok(()),
            };
            if told(compared, name.clone(), file) {
                break;
            }
        }
        if let (Ok(layout), true) = (verdict, file.len() < 20_000) {
            accepted.push(Source::new(file.clone(), &layout));
        }
    }
    'sources: for seed in (first..).take(sources as usize) {
        let random = &mut Random::new(seed);
        let source = if random.once_in(4) {
            accepted[random.below(accepted.len())].clone()
        } else {
            let file = match random.once_in(4) {
                true => at_the_edges(random),
                false => generate::file(random),
            };
            if told(comparison.file(&file), format!("{seed}-whole"), &file) {
                break;
            }
            let layout = check(&file).expect("a generated file is accepted");
            Source::new(file, &layout)
        };
        for copy in 0..COPIES {
            let file = source.damaged(random);
            if told(comparison.file(&file), format!("{seed}-{copy}"), &file) {
                break 'sources;
            }
        }
    }
    Outcome {
        counts: std::mem::take(&mut comparison.counts),
        difference,
    }
}

struct Outcome {
    counts: BTreeMap<String, u64>,
    /// What differs, and for which file.
    difference: Option<(String, Vec<u8>)>,
}

/// No difference, and each kind of answer often enough.
fn all_alike(name: &str, rewrite: &Rewrite) {
    let sources = setting("DTA_REWRITTEN", REWRITTEN);
    let outcome = compare(rewrite, &stated::all(), sources);
    if let Some((difference, file)) = outcome.difference {
        let kept = std::env::temp_dir().join(format!("dta-rewritten-{name}.dta"));
        std::fs::write(&kept, file).expect("the file is kept");
        panic!(
            "{name}: {difference}; the file is kept in {}",
            kept.display()
        );
    }
    let mut line = format!("{name}:");
    for (kind, count) in &outcome.counts {
        line += &format!(" {kind}: {count};");
    }
    writeln!(std::io::stdout(), "{line}").expect("the line is written");
    if sources >= REWRITTEN {
        let ways = NUMBERS
            .iter()
            .flat_map(|from| NUMBERS.map(|to| (format!("done from {from} to {to}"), EACH_WAY)));
        let kinds = KINDS.map(|(kind, least)| (kind.to_string(), least));
        for (kind, least) in kinds.into_iter().chain(ways) {
            let count = outcome.counts.get(&kind).copied().unwrap_or(0);
            assert!(count >= least, "{kind} occurred {count} times only");
        }
    }
}

#[test]
fn the_stand_in_is_alike() {
    all_alike("stand-in", &stand_in::right);
}

#[test]
fn the_proved_library_is_alike() {
    all_alike("proved", &proved::rewrite);
}

#[test]
fn the_harness_finds_what_is_wrong() {
    let stated: Vec<_> = stated::all()
        .into_iter()
        .filter(|stated| stated.file.len() < 3_000)
        .collect();
    let mut missed = Vec::new();
    let wrong = stand_in::wrong();
    assert!(wrong.len() >= 80);
    for (name, rewrite) in wrong {
        if compare(&rewrite, &stated, 300).difference.is_none() {
            missed.push(name);
        }
    }
    assert!(missed.is_empty(), "not found: {missed:#?}");
}

// Bounds.

/// One variable of that type, without observations.
fn one(of: Type) -> Dataset {
    Dataset {
        n: 0,
        label: Vec::new(),
        stamp: Vec::new(),
        variables: vec![Variable {
            of,
            name: b"x".to_vec(),
            format: Vec::new(),
            set: Vec::new(),
            label: Vec::new(),
        }],
        sorted: vec![1],
        cells: Vec::new(),
        records: Vec::new(),
        blocks: Vec::new(),
    }
}

/// A file with so many bytes in its column, and so many zeros behind it.
fn column(target: Target, n: u64, more: usize) -> Vec<u8> {
    let dataset = Dataset {
        n,
        ..one(Type::Byte)
    };
    // Pages of zeros, of which only the first are touched.
    let head = write(&dataset, target);
    let mut file = vec![0; head.len() + n as usize + more];
    file[..head.len()].copy_from_slice(&head);
    file
}

fn length_bound(rewrite: &Rewrite) -> Compared {
    let comparison = &mut Comparison::new(rewrite, 0);
    let short = one(Type::Byte);
    for order in [Order::Msf, Order::Lsf] {
        let old = target(114, order);
        let most = |edition| BOUND - held(&short, target(edition, order)).unwrap();
        // The longest result of 118, one byte more, the same of 117, and the longest file of 114.
        for n in [
            most(118),
            most(118) + 1,
            most(117),
            most(117) + 1,
            most(114),
        ] {
            let file = column(old, n, 0);
            let layout = check(&file).expect("accepted");
            let outline = outline(&file, &layout);
            for to in TARGETS {
                let number = if n <= most(to.edition) { 14 } else { 15 };
                assert_eq!(held(&outline, to).is_ok(), number == 14);
                for room in [0, 1_000] {
                    comparison.call(&file, to.numbers(), room, Err(number))?;
                }
            }
            comparison.call(&file, (119, 1), 1_000, Err(15))?;
        }
        let file = column(old, most(114), 1);
        for (edition, order) in [(114, 1), (117, 2), (118, 2), (119, 3)] {
            comparison.call(&file, (edition, order), 1_000, Err(1))?;
        }
    }
    Ok(())
}

/// The most variables, label entries and label text, and more observations than two bytes count.
fn large() -> Vec<Dataset> {
    let types = [
        Type::Byte,
        Type::Int,
        Type::Text(2),
        Type::Long,
        Type::Float,
        Type::Double,
    ];
    let many = one(Type::Byte).variables.into_iter().cycle();
    let variables: Vec<Variable> = many
        .zip(types.into_iter().cycle())
        .take(32_767)
        .map(|(variable, of)| Variable { of, ..variable })
        .collect();
    let random = &mut Random::new(0);
    let cells = variables.iter().map(|variable| match variable.of {
        Type::Text(_) => Cell::Text(b"a".to_vec()),
        of => Cell::Bits(random.number() >> (64 - 8 * of.width())),
    });
    let variables = Dataset {
        n: 1,
        cells: cells.collect(),
        sorted: (1..=32_767).rev().collect(),
        variables,
        ..one(Type::Byte)
    };
    let block = |entries, text_length| Block {
        name: b"labels".to_vec(),
        text_length,
        entries,
    };
    let entry = |offset, value, text: &[u8]| Entry {
        offset,
        value,
        text: text.to_vec(),
    };
    let entries = (0..65_536)
        .map(|value| entry(value % 3, value, &b"ab"[value as usize % 3..]))
        .collect();
    let last = 5_308_415;
    let labels = Dataset {
        blocks: vec![
            block(entries, 4),
            block(vec![entry(0, 0, &vec![b'x'; last])], last as u64 + 1),
            block(vec![entry(last as u64, 0, b"")], last as u64 + 1),
        ],
        ..one(Type::Byte)
    };
    let mut strls = Dataset {
        n: 66_000,
        ..one(Type::Strl)
    };
    for o in 1..=strls.n {
        let named = (o - 1) / 3 * 3 + 1;
        strls.cells.push(Cell::Reference { v: 1, o: named });
        if named == o {
            strls.records.push(Record {
                v: 1,
                o,
                kind: 130,
                contents: b"a\0".to_vec(),
            });
        }
    }
    vec![variables, labels, strls]
}

fn large_files(rewrite: &Rewrite) -> Compared {
    let comparison = &mut Comparison::new(rewrite, 0);
    for from in [target(117, Order::Lsf), target(118, Order::Msf)] {
        for dataset_of_file in large() {
            let file = write(&dataset_of_file, from);
            let layout = check(&file).expect("accepted");
            assert!(dataset(&file, &layout) == dataset_of_file);
            for to in [
                target(113, Order::Lsf),
                target(115, Order::Msf),
                target(117, Order::Msf),
                target(118, Order::Lsf),
            ] {
                let (numbers, room) = (to.numbers(), file.len());
                if held(&dataset_of_file, to).is_err() {
                    comparison.call(&file, numbers, room, Err(15))?;
                    continue;
                }
                let result = write(&dataset_of_file, to);
                comparison.call(&file, numbers, result.len(), Ok(&result))?;
                comparison.call(&file, numbers, result.len() - 1, Err(14))?;
                comparison.call(&result, from.numbers(), room, Ok(&file))?;
            }
        }
    }
    Ok(())
}

/// Rows are written in blocks of about so many bytes.
const BLOCK: u64 = 4_096;

/// Rows of any mix of types, up to four of one type beside each other, some wider than a block; in numbers about those that make one or more blocks.
fn rows(random: &mut Random) -> Dataset {
    let mut types = Vec::new();
    for _ in 0..random.between(1, 7) {
        let texts = [1, 3, 31, 32, 90].map(Type::Text);
        let of = match random.once_in(4) {
            true => random.pick(&texts),
            false => random.pick(&[Type::Byte, Type::Int, Type::Long, Type::Float, Type::Double]),
        };
        types.extend(std::iter::repeat_n(of, random.between(1, 4)));
    }
    if random.once_in(6) {
        let width = random.between(1, 244) as u64;
        let wide = std::iter::repeat_n(Type::Text(width), (BLOCK / width) as usize + 1);
        types.splice(0..0, wide);
    }
    let like = one(Type::Byte).variables.remove(0);
    let variables: Vec<Variable> = types
        .iter()
        .map(|of| Variable {
            of: *of,
            ..like.clone()
        })
        .collect();
    let row: u64 = types.iter().map(|of| of.width()).sum();
    let block = BLOCK / (row + 1) + 1;
    let n = random
        .pick(&[1, block - 1, block, block + 1, 2 * block, 3 * block + 1])
        .max(1);
    let mut cells = Vec::new();
    for of in types.iter().cycle().take(n as usize * types.len()) {
        cells.push(match of {
            Type::Text(width) => {
                let length = random.below(*width as usize + 1);
                Cell::Text(random.text(length))
            }
            of => Cell::Bits(random.number() >> (64 - 8 * of.width())),
        });
    }
    Dataset {
        n,
        variables,
        cells,
        ..one(Type::Byte)
    }
}

fn blocks_of_rows(rewrite: &Rewrite) -> Compared {
    let comparison = &mut Comparison::new(rewrite, 0);
    for seed in 0..300 {
        let random = &mut Random::new(seed);
        let order = random.pick(&[Order::Msf, Order::Lsf]);
        let file = write(&rows(random), target(random.pick(&NUMBERS), order));
        let compared = comparison.file(&file);
        compared.map_err(|difference| format!("rows of seed {seed}: {difference}"))?;
    }
    Ok(())
}

/// One byte wrong in the last row of a block, and in the first of the next.
#[test]
fn a_wrong_block_is_found() {
    for after in [0, 1] {
        let wrong = move |file: &[u8], edition: u64, order: u64, out: &mut [u8]| {
            let (number, length) = stand_in::right(file, edition, order, out);
            if let (0, Ok(layout)) = (number, check(&out[..length as usize])) {
                let row = outline(&out[..length as usize], &layout).row();
                let place = BLOCK / (row + 1) + after;
                if row > 0 && place < u64::from(layout.n) {
                    let data = layout.positions[9] + if layout.edition >= 117 { 6 } else { 0 };
                    out[(data + place * row) as usize] ^= 1;
                }
            }
            (number, length)
        };
        assert!(blocks_of_rows(&wrong).is_err(), "{after}");
    }
}

#[test]
fn a_wrong_length_bound_is_found() {
    // None, one less, one more.
    for bound in [u64::MAX, BOUND - 1, BOUND + 1] {
        let wrong = move |file: &[u8], edition: u64, order: u64, out: &mut [u8]| {
            let answer = stand_in::right(file, edition, order, out);
            let (Ok(layout), Some(target)) = (check(file), Target::offered(edition, order)) else {
                return answer;
            };
            match file_length(&outline(file, &layout), target) <= bound {
                true if answer.0 == 15 => (14, 0),
                false => (15, 0),
                _ => answer,
            }
        };
        assert!(length_bound(&wrong).is_err(), "{bound}");
    }
}

/// The length of the result, also over the bound.
fn file_length(dataset: &Dataset, target: Target) -> u64 {
    write(dataset, target).len() as u64 + dataset.n * dataset.row()
}

#[test]
fn bounds_of_the_stand_in() {
    assert_eq!(length_bound(&stand_in::right), Ok(()));
    assert_eq!(large_files(&stand_in::right), Ok(()));
    assert_eq!(blocks_of_rows(&stand_in::right), Ok(()));
}

// The proved library alone.

mod library {
    use super::*;
    use independent::proved::{call_rewrite, rewrite};

    #[test]
    fn bounds_of_the_proved_library() {
        assert_eq!(length_bound(&rewrite), Ok(()));
        assert_eq!(large_files(&rewrite), Ok(()));
        assert_eq!(blocks_of_rows(&rewrite), Ok(()));
    }

    #[test]
    fn what_lies_behind_the_answer_is_left_as_it_came() {
        let file = stated::case("114-lsf-typical");
        let due = stand_in::right(&file, 117, 1, &mut vec![0; 20_000]);
        for (edition, room, due) in [(117, 20_000, due), (118, 1, (14, 0)), (1, 1, (15, 0))] {
            let mut len = [7; 4];
            let number = call_rewrite(&file, edition, 1, &mut vec![0; room], &mut len);
            assert_eq!((u64::from(number), len), (due.0, [due.1, 7, 7, 7]));
            // A part with no place for the length is left alone.
            let number = call_rewrite(&file, edition, 1, &mut vec![0; room], &mut []);
            assert_eq!(u64::from(number), due.0);
        }
    }

    #[test]
    fn a_stack_of_512_kib_is_enough() {
        let called = || {
            for stated in stated::all() {
                let room = 4 * stated.file.len() + 2_000;
                let [mut out, mut due] = [0, 1].map(|_| vec![7; room]);
                for (edition, order) in TARGETS.map(Target::numbers) {
                    let answer = rewrite(&stated.file, edition, order, &mut out);
                    let answer_due = stand_in::right(&stated.file, edition, order, &mut due);
                    assert_eq!(answer, answer_due, "{}", stated.name);
                    assert!(out == due, "{}", stated.name);
                }
            }
        };
        let thread = std::thread::Builder::new().stack_size(512 * 1024);
        thread.spawn(called).unwrap().join().unwrap();
    }
}
