//! The label words of many variables at once: `words_across` against the independent answers, over any file, layout and list; and the rows of words of the safe
//! crate.

use super::{coded, files, setting, BEFORE};
use dta::raw;
use independent::edition::{Edition, NUMBERS};
use independent::generate::Order;
use independent::questions::{ask, numbers, Answer, Kind, Numbers, Question};
use independent::random::Random;
use independent::sketch::{table, width, Sketch, Variable, X};
use independent::{check, stated, wrong};

/// Files with several label sets, for each of which a damaged one is asked, too.
const SEVERAL: usize = 400;
/// Answers of one call that are compared, but for a few more.
const MOST: usize = 60;
const PLAIN: [u64; 4] = [5, 0, 0, 0];

/// What is lent to a call.
struct Call<'a> {
    file: &'a [u8],
    layout: &'a Numbers,
    variables: &'a [u64],
    j: u64,
    rows: u64,
    answers: &'a mut [u64],
    count: &'a mut [u64],
}

impl Call<'_> {
    fn again(&mut self) -> Call<'_> {
        Call {
            answers: &mut *self.answers,
            count: &mut *self.count,
            ..*self
        }
    }
}

type Across = fn(Call) -> u8;

fn proved(call: Call) -> u8 {
    raw::words_across(
        call.file,
        call.layout,
        call.variables,
        call.j,
        call.rows,
        call.answers,
        call.count,
    )
}

// Files, layouts and lists.

/// A file, and the layouts by which it is asked.
struct Asked {
    file: Vec<u8>,
    layouts: Vec<Numbers>,
}

/// The files of the other tests by their own layouts and by wrong ones; and files with several label sets, whole and damaged.
fn all_asked() -> Vec<Asked> {
    let mut random = Random::new(setting("DTA_SEED", 7_000));
    let mut asked = Vec::new();
    let mut other = [0; 18];
    for file in files() {
        let layouts = match check(&file) {
            Ok(own) => {
                let own = numbers(&own);
                let mut ends = own;
                wrong::other_ends(&mut random, &mut ends, file.len());
                let wrong = wrong::layout(&mut random, &own, &other, file.len());
                other = own;
                vec![own, ends, wrong]
            }
            Err(_) => vec![other],
        };
        asked.push(Asked { file, layouts });
    }
    for _ in 0..SEVERAL {
        let file = several(&mut random);
        let own = numbers(&check(&file).expect("a file with label sets"));
        asked.extend(damaged(&mut random, &file, &own));
        let layouts = vec![own];
        asked.push(Asked { file, layouts });
    }
    asked
}

/// Names of label sets, some of which begin others; the first is none.
const NAMES: [&str; 10] = [
    "",
    "a",
    "ab",
    "abc",
    "b",
    "B",
    "\u{e9}",
    "a_name_of_thirty_two_bytes_is_ok",
    "a_name_of_thirty_three_bytes_is_ok",
    "a_name_of_128_bytes_is_the_longest_that_edition_118_holds_which_is_why_this_one_goes_on_and_on_until_it_has_as_many_as_that_____",
];

/// A file with several label sets: some for more than one variable, some with names that come again, some for none; and variables without a set.
fn several(random: &mut Random) -> Vec<u8> {
    let edition = random.pick(&NUMBERS);
    let order = random.pick(&[Order::Msf, Order::Lsf]);
    let mut sketch = Sketch::new(edition, order);
    // The last two are too long for the others.
    let names = if edition == 118 { &NAMES } else { &NAMES[..8] };
    for _ in 0..random.between(1, 9) {
        let kind = random.pick(&[Kind::Byte, Kind::Int, Kind::Long]);
        let set = random.pick(names);
        sketch.variables.push(Variable { kind, set, ..X });
    }
    sketch.n = random.below(6) as u64;
    for _ in 0..sketch.n {
        for variable in &sketch.variables {
            let cell = order.bytes(random.below(5) as u64, width(variable.kind));
            sketch.data.extend(cell);
        }
    }
    for _ in 0..random.below(9) {
        let entries = [(0, "none"), (1, ""), (2, "some"), (3, "many"), (4, "all")];
        let few = random.below(6);
        let name = random.pick(&names[1..]);
        sketch.blocks.push((name, table(order, &entries[..few])));
    }
    sketch.file()
}

/// Where the label blocks of an accepted file begin, after their tags.
fn heads(file: &[u8], own: &Numbers) -> Vec<usize> {
    let order = Order::from_code(own[1] as u8);
    let edition = Edition::of(own[0]).expect("an edition that is read");
    let [start, open, close, end] = match edition.tagged {
        true => [14, 5, 6, 15],
        false => [0; 4],
    };
    let mut heads = Vec::new();
    let mut at = own[15] as usize + start;
    let end = own[16] as usize - end;
    while at < end {
        let head = at + open;
        heads.push(head);
        let table = head + edition.block_head();
        at = table + order.number(&file[head..head + 4]) as usize + close;
    }
    heads
}

/// The file with one of its label blocks broken: the block, its table, the part or the file ends too early or too late.
fn damaged(random: &mut Random, file: &[u8], own: &Numbers) -> Option<Asked> {
    let heads = heads(file, own);
    if heads.is_empty() {
        return None;
    }
    let head = random.pick(&heads);
    let edition = Edition::of(own[0]).expect("an edition that is read");
    let table = head + edition.block_head();
    let (mut file, mut layout) = (file.to_vec(), *own);
    let least = if own[1] == 1 { 3 } else { 0 };
    let by = random.pick(&[1, 8, 255, 248]);
    let mut change = |place: usize| file[place] = file[place].wrapping_add(by);
    match random.below(5) {
        0 => change(head + least),
        1 => change(table + least),
        2 => change(table + 4 + least),
        3 => layout[16] = random.between(head, table + 20) as u64,
        _ => file.truncate(random.between(head, table + 20)),
    }
    let layouts = vec![layout];
    Some(Asked { file, layouts })
}

/// The name of a variable's label set.
fn set<'a>(file: &'a [u8], layout: &Numbers, i: u64) -> &'a [u8] {
    match ask(file, layout, Question::Set(i)) {
        Answer::Text(span) => &file[span.place as usize..][..span.length as usize],
        _ => &[],
    }
}

/// Lists of variables: by the names of their label sets, in other orders, with repeats, and with one that is not there.
fn lists(random: &mut Random, file: &[u8], layout: &Numbers) -> Vec<Vec<u64>> {
    let k = layout[2];
    let any = |random: &mut Random| match k {
        0 => 0,
        _ => 1 + random.below(k.min(1 << 40) as usize) as u64,
    };
    let some: Vec<u64> = match k {
        0..=9 => (1..=k).collect(),
        _ => (0..9).map(|_| any(random)).collect(),
    };
    let mut sorted = some.clone();
    sorted.sort_by_key(|i| set(file, layout, *i));
    let twice: Vec<u64> = sorted.iter().flat_map(|i| [*i, *i]).collect();
    let reversed: Vec<u64> = sorted.iter().copied().rev().collect();
    let mixed = (0..12).map(|_| any(random)).collect();
    let missing = random.pick(&[0, k.wrapping_add(1), u64::MAX]);
    let first = [vec![missing], sorted.clone()].concat();
    let mut later = sorted.clone();
    later.insert(random.below(sorted.len() + 1), missing);
    vec![
        sorted,
        some,
        twice,
        reversed,
        mixed,
        first,
        later,
        Vec::new(),
    ]
}

/// First observations, and how many are asked for.
fn runs(random: &mut Random, n: u64) -> [(u64, u64); 4] {
    let most = n.min(1 << 40) as usize;
    let there = 1 + random.below(most.max(1)) as u64;
    [
        (1, random.pick(&[n, u64::MAX])),
        (there, random.pick(&[0, 1, 2, u64::MAX])),
        (1, random.below(most.min(9) + 2) as u64),
        (random.pick(&[0, n, n.wrapping_add(1), u64::MAX]), 2),
    ]
}

// Comparison.

/// What is due: the number, and the answers one after another, as many as are compared and three more.
fn due(call: &Call) -> (u8, Vec<u64>) {
    let (file, layout, j) = (call.file, call.layout, call.j);
    let (k, n) = (layout[2], layout[3]);
    let first = call.variables.first().copied().unwrap_or(0);
    if !(1..=k).contains(&first) || !(1..=n).contains(&j) {
        return (16, Vec::new());
    }
    let rows = call.rows.min(n - j + 1);
    let cells = call.variables.iter();
    let cells = cells.flat_map(|i| (0..rows).map(move |m| Question::Words(*i, j + m)));
    let answers = cells.take(MOST + 3);
    let answers = answers.flat_map(|question| coded(ask(file, layout, question)));
    (0, answers.collect())
}

/// What is different with as much room as that, and so many places for the count.
fn difference_in(
    across: Across,
    call: Call,
    due: &(u8, Vec<u64>),
    room: usize,
    places: usize,
) -> Option<String> {
    let stored = due.1.len().min(room / 4 * 4);
    let mut left = due.1[..stored].to_vec();
    left.resize(room, BEFORE);
    let mut counted = vec![BEFORE; places];
    let many = stored as u64 / 4;
    counted.iter_mut().take(1).for_each(|place| *place = many);
    let (mut lent, mut told) = (vec![BEFORE; room], vec![BEFORE; places]);
    let code = across(Call {
        answers: &mut lent,
        count: &mut told,
        ..call
    });
    if (code, &lent, &told) == (due.0, &left, &counted) {
        return None;
    }
    Some(format!(
        "{:?} {} {} in {room}: {code} {lent:x?} {told:x?}, due {} {left:x?} {counted:x?}",
        call.variables, call.j, call.rows, due.0
    ))
}

/// What is different in the answers about a list: with room for more than all, and for none, some or just all of them.
fn difference(
    across: Across,
    mut call: Call,
    random: &mut Random,
    count: &mut u64,
) -> Option<String> {
    let due = due(&call);
    let all = due.1.len().min(4 * MOST);
    let some = random.below(all + 1);
    *count += all as u64 / 4;
    let less = [(0, 1), (3, 2), (4, 0), (some, 1), (all, 0), (all, 1)];
    [random.pick(&less), (all + 9, random.pick(&[0, 1, 2]))]
        .into_iter()
        .find_map(|(room, places)| difference_in(across, call.again(), &due, room, places))
}

/// The first difference, else how many answers were compared.
fn first_difference(across: Across, all: &[Asked]) -> Result<u64, String> {
    let mut random = Random::new(setting("DTA_SEED", 8_000));
    let mut count = 0;
    for asked in all {
        let file = &asked.file;
        for layout in &asked.layouts {
            for variables in &lists(&mut random, file, layout) {
                for (j, rows) in runs(&mut random, layout[3]) {
                    let call = Call {
                        file,
                        layout,
                        variables,
                        j,
                        rows,
                        answers: &mut [],
                        count: &mut [],
                    };
                    if let Some(difference) = difference(across, call, &mut random, &mut count) {
                        let length = file.len();
                        return Err(format!("{length} bytes by {layout:?}: {difference}"));
                    }
                }
            }
        }
    }
    Ok(count)
}

#[test]
fn words_of_many_variables_are_those_of_each() {
    let count = first_difference(proved, &all_asked()).unwrap_or_else(|error| panic!("{error}"));
    assert!(count > 300_000, "{count} answers");
}

// Wrong functions.

/// The library's answers, each changed, by the place of its variable in the list and its observation.
fn changed(call: Call, mut change: impl FnMut(usize, u64, &mut [u64])) -> u8 {
    let (layout, j, rows) = (call.layout, call.j, call.rows);
    let mut many = [0];
    let code = proved(Call {
        answers: &mut *call.answers,
        count: &mut many,
        ..call
    });
    let stored = call.answers.chunks_exact_mut(4).take(many[0] as usize);
    for (at, answer) in stored.enumerate() {
        let rows = rows.min(layout[3] - j + 1);
        change((at as u64 / rows) as usize, j + at as u64 % rows, answer);
    }
    call.count
        .iter_mut()
        .take(1)
        .for_each(|place| *place = many[0]);
    code
}

/// The last block of a name wins.
fn last_block(call: Call) -> u8 {
    let mut file = call.file.to_vec();
    if let Ok(opened) = dta::open(call.file) {
        let names: Vec<&[u8]> = opened.label_sets().map(|set| set.name).collect();
        for (at, name) in names.iter().enumerate() {
            if names[at + 1..].contains(name) {
                file[name.as_ptr() as usize - call.file.as_ptr() as usize] = 0;
            }
        }
    }
    proved(Call {
        file: &file,
        ..call
    })
}

/// The name of a block is sought in the list by halving, whether the list is in order or not.
fn halved(call: Call) -> u8 {
    let names: Vec<&[u8]> = call
        .variables
        .iter()
        .map(|i| set(call.file, call.layout, *i))
        .collect();
    changed(call, |at, _, answer| {
        if answer[0] == 4 && names.binary_search(&names[at]).is_err() {
            answer.copy_from_slice(&PLAIN);
        }
    })
}

/// A variable's table is that of the one before it in the list.
fn neighbour(call: Call) -> u8 {
    let (file, layout, variables) = (call.file, call.layout, call.variables);
    let field = |i| {
        let mut numbers = [0; 4];
        raw::ask(file, layout, 9, i, 0, &mut numbers);
        let start = numbers[1] as usize;
        let width = Edition::of(layout[0]).map_or(0, |edition| edition.name);
        (numbers[0] == 4 && start + width <= file.len()).then_some(start..start + width)
    };
    changed(call, |at, j, answer| {
        let Some(before) = at.checked_sub(1) else {
            return;
        };
        if let (Some(from), Some(to)) = (field(variables[before]), field(variables[at])) {
            let mut file = file.to_vec();
            file.copy_within(from, to.start);
            raw::ask(&file, layout, 15, variables[at], j, answer);
        }
    })
}

/// A later variable that is not there has no labels.
fn plain_later(call: Call) -> u8 {
    changed(call, |at, _, answer| {
        if at > 0 && *answer == [0, 16, 0, 0] {
            answer.copy_from_slice(&PLAIN);
        }
    })
}

/// .. or refuses the whole list.
fn all_there(call: Call) -> u8 {
    let k = call.layout[2];
    match call.variables.iter().all(|i| (1..=k).contains(i)) {
        true => proved(call),
        false => 16,
    }
}

fn one_more(call: Call) -> u8 {
    let rows = call.rows.saturating_add(1);
    proved(Call { rows, ..call })
}

/// An observation after the last.
fn one_past(call: Call) -> u8 {
    let mut layout = *call.layout;
    layout[3] = layout[3].saturating_add(1);
    proved(Call {
        layout: &layout,
        ..call
    })
}

/// Whether an answer is refused, and neither its cell nor the name of its set is: a block is broken, or the label.
fn is_broken(file: &[u8], layout: &Numbers, i: u64, j: u64, answer: &[u64]) -> bool {
    let told = |question| raw::ask(file, layout, question, i, j, &mut []) == 0;
    *answer == [0, 17, 0, 0] && told(13) && told(9)
}

/// A set that is not found before a broken block is not there.
fn forgotten(call: Call) -> u8 {
    let (file, layout, variables) = (call.file, call.layout, call.variables);
    changed(call, |at, j, answer| {
        if is_broken(file, layout, variables[at], j, answer) {
            answer.copy_from_slice(&PLAIN);
        }
    })
}

/// A broken block refuses the sets before it, too.
fn all_broken(mut call: Call) -> u8 {
    let (file, layout, variables) = (call.file, call.layout, call.variables);
    let mut broken = false;
    changed(call.again(), |at, j, answer| {
        broken |= is_broken(file, layout, variables[at], j, answer);
    });
    changed(call, |_, _, answer| {
        if broken && answer[0] == 4 {
            answer.copy_from_slice(&[0, 17, 0, 0]);
        }
    })
}

/// Observation by observation.
fn along(call: Call) -> u8 {
    let (file, layout, variables) = (call.file, call.layout, call.variables);
    let mut next = (call.j, 0);
    changed(call, |_, _, answer| {
        let (j, at) = next;
        raw::ask(file, layout, 15, variables[at], j, answer);
        next = match at + 1 < variables.len() {
            true => (j, at + 1),
            false => (j + 1, 0),
        };
    })
}

/// A first variable that is not there is refused alone.
fn unrefused(call: Call) -> u8 {
    match proved(call) {
        16 => 0,
        code => code,
    }
}

/// An empty list is no fault.
fn none_listed(call: Call) -> u8 {
    match (call.variables.is_empty(), proved(call)) {
        (true, 16) => 0,
        (_, code) => code,
    }
}

/// The numbers that are stored are counted, and not the answers.
fn numbers_of(call: Call) -> u8 {
    let Call { answers, count, .. } = call;
    let code = proved(Call {
        answers,
        count: &mut *count,
        ..call
    });
    count.iter_mut().take(1).for_each(|place| *place *= 4);
    code
}

/// All room is written to.
fn behind(call: Call) -> u8 {
    let mut many = [0];
    let Call { answers, count, .. } = call;
    let code = proved(Call {
        answers: &mut *answers,
        count: &mut many,
        ..call
    });
    answers[4 * many[0] as usize..].fill(0);
    count.iter_mut().take(1).for_each(|place| *place = many[0]);
    code
}

#[test]
fn wrong_words_of_many_variables_are_found() {
    let all = all_asked();
    let wrong: [(&str, Across); 14] = [
        ("last_block", last_block),
        ("halved", halved),
        ("neighbour", neighbour),
        ("plain_later", plain_later),
        ("all_there", all_there),
        ("one_more", one_more),
        ("one_past", one_past),
        ("forgotten", forgotten),
        ("all_broken", all_broken),
        ("along", along),
        ("unrefused", unrefused),
        ("none_listed", none_listed),
        ("numbers_of", numbers_of),
        ("behind", behind),
    ];
    for (name, across) in wrong {
        assert!(first_difference(across, &all).is_err(), "{name}");
    }
}

// At the edges.

#[test]
fn layouts_of_fewer_numbers_have_no_variable() {
    let file = stated::case("117-msf-typical");
    let own = numbers(&check(&file).unwrap());
    for length in 0..18 {
        let (mut lent, mut many) = ([BEFORE; 9], [BEFORE]);
        let layout = &own[..length];
        let code = raw::words_across(&file, layout, &[1], 1, 1, &mut lent, &mut many);
        assert_eq!((code, lent, many), (16, [BEFORE; 9], [0]));
    }
    let longer = [&own[..], &[7, 7]].concat();
    let (mut lent, mut many) = ([BEFORE; 5], [BEFORE]);
    let code = raw::words_across(&file, &longer, &[1], 1, 1, &mut lent, &mut many);
    let due = coded(ask(&file, &own, Question::Words(1, 1)));
    assert_eq!(
        (code, &lent[..4], lent[4], many),
        (0, &due[..], BEFORE, [1])
    );
}

/// A file of five variables, four of which have label sets, in two observations; its variables in the order of their sets' names.
fn five() -> (Vec<u8>, [u64; 5]) {
    let order = Order::Msf;
    let mut sketch = Sketch::new(117, order);
    let sets = ["b", "", "ab", "b", "a"];
    sketch.variables = sets.map(|set| Variable { set, ..X }).to_vec();
    sketch.n = 2;
    sketch.data = vec![1, 1, 1, 1, 1, 2, 2, 2, 2, 2];
    let block = |name, text| (name, table(order, &[(1, "one"), (2, text)]));
    sketch.blocks = vec![block("a", "A"), block("b", "BB"), block("b", "other")];
    (sketch.file(), [2, 5, 3, 1, 4])
}

/// More observations than there can be, so that the answers are more than a number can count.
#[test]
fn more_answers_than_can_be_counted() {
    let (file, sorted) = five();
    let mut random = Random::new(1);
    let mut count = 0;
    for n in [1 << 61, 1 << 62, 1 << 63, u64::MAX] {
        let mut layout = numbers(&check(&file).unwrap());
        layout[3] = n;
        for variables in [&sorted[..], &[1, 2, 3, 4, 5], &[1, 2, 3, 4], &[4, 3], &[2]] {
            for (j, rows) in [(1, n), (1, u64::MAX), (2, n), (n, 9), (n - 3, u64::MAX)] {
                let call = Call {
                    file: &file,
                    layout: &layout,
                    variables,
                    j,
                    rows,
                    answers: &mut [],
                    count: &mut [],
                };
                assert_eq!(difference(proved, call, &mut random, &mut count), None);
            }
        }
    }
    assert!(count > 2_000, "{count} answers");
}

/// Lists as long as those whose tables are found in one pass, and longer ones, in order and not.
#[test]
fn lists_as_long_as_there_may_be() {
    let (file, sorted) = five();
    let own = numbers(&check(&file).unwrap());
    for length in [32_767, 32_768, 32_769, 70_000] {
        let ordered: Vec<u64> = (0..length).map(|at| sorted[at * 5 / length]).collect();
        let mixed: Vec<u64> = (0..length).map(|at| sorted[at % 5]).collect();
        for list in [ordered, mixed] {
            let mut lent = vec![BEFORE; 8 * length + 1];
            let mut many = [BEFORE];
            let code = raw::words_across(&file, &own, &list, 1, 9, &mut lent, &mut many);
            assert_eq!((code, many), (0, [2 * length as u64]));
            assert_eq!(lent.pop(), Some(BEFORE));
            let due = |i: u64, j| coded(ask(&file, &own, Question::Words(i, j)));
            let due: Vec<[[u64; 4]; 2]> = (1..=5).map(|i| [due(i, 1), due(i, 2)]).collect();
            for (i, answers) in list.iter().zip(lent.chunks(8)) {
                assert_eq!(answers, due[*i as usize - 1].as_flattened());
            }
        }
    }
}

/// Texts that are longer than the stretches by which their ends are looked up, of two sets in turn.
#[test]
fn long_labels_of_several_sets() {
    let order = Order::Lsf;
    let long = |letter: u8, lengths: [usize; 4]| -> Vec<String> {
        let text = |length| String::from(letter as char).repeat(length);
        lengths.into_iter().map(text).collect()
    };
    let texts = [
        long(b'a', [300, 0, 255, 1_000]),
        long(b'b', [10, 700, 513, 2]),
    ];
    let blocks = texts.each_ref().map(|texts| {
        let entries: Vec<(i32, &str)> = (1..).zip(texts.iter().map(String::as_str)).collect();
        table(order, &entries)
    });
    let mut sketch = Sketch::new(114, order);
    let sets = ["a", "b", "a", "b", "", "none"];
    sketch.variables = sets.map(|set| Variable { set, ..X }).to_vec();
    sketch.n = 40;
    sketch.data = (0..240).map(|at| (at / 6 + at % 6) as u8 % 6).collect();
    sketch.blocks = ["a", "b"].into_iter().zip(blocks).collect();
    let file = sketch.file();
    let own = numbers(&check(&file).unwrap());
    for list in [
        [5, 1, 3, 2, 4, 6],
        [1, 2, 3, 4, 5, 6],
        [1, 1, 1, 2, 2, 2],
        [2, 1, 2, 1, 2, 1],
    ] {
        let mut lent = vec![BEFORE; 4 * 240];
        let code = raw::words_across(&file, &own, &list, 1, 40, &mut lent, &mut []);
        assert_eq!(code, 0);
        for (i, answers) in list.iter().zip(lent.chunks(160)) {
            for (j, answer) in (1..).zip(answers.chunks(4)) {
                let due = coded(ask(&file, &own, Question::Words(*i, j)));
                assert_eq!(answer, due, "variable {i}, observation {j}, {list:?}");
            }
        }
    }
}

/// The stack that the header for C programs asks for.
#[test]
fn a_megabyte_of_stack_is_enough() {
    let asked = || {
        let (file, sorted) = five();
        let own = numbers(&check(&file).unwrap());
        let long = vec![1; 40_000];
        for list in [&sorted[..], &[1, 2, 3, 4, 5], &long] {
            let (mut lent, mut many) = ([BEFORE; 400], [BEFORE]);
            let code = raw::words_across(&file, &own, list, 1, 2, &mut lent, &mut many);
            assert_eq!(code, 0);
            assert!(many[0] > 0);
        }
        let opened = dta::open(&file).unwrap();
        assert_eq!(opened.row_words(&sorted).unwrap().count(), 2);
    };
    let thread = std::thread::Builder::new().stack_size(1024 * 1024);
    thread.spawn(asked).unwrap().join().unwrap();
}

// The safe crate.

/// The rows of words about a list are those of the columns, from each of some observations on, so many at once.
fn rows_are_those(opened: &dta::File<&[u8]>, list: &[u64], columns: &[Vec<dta::Words>]) {
    let n = opened.observation_count();
    let due = |from: u64| -> Vec<Vec<dta::Words>> {
        let row = |j| list.iter().map(move |i| columns[*i as usize - 1][j]);
        (from as usize - 1..n as usize)
            .map(|j| row(j).collect())
            .collect()
    };
    let all = || opened.row_words(list).unwrap();
    assert_eq!(all().collect::<Vec<_>>(), due(1));
    for at_once in [0, 2, usize::MAX] {
        assert_eq!(all().at_once(at_once).collect::<Vec<_>>(), due(1));
    }
    for j in [2, n].into_iter().filter(|j| (1..=n).contains(j)) {
        let rows = || opened.row_words_from(list, j).unwrap();
        assert_eq!(rows().collect::<Vec<_>>(), due(j));
        assert_eq!(rows().at_once(2).collect::<Vec<_>>(), due(j));
        for count in [0, 3] {
            let rows: Vec<_> = rows().at_most(count).at_once(2).collect();
            assert_eq!(rows[..], due(j)[..rows.len()]);
            assert_eq!(rows.len() as u64, count.min(n - j + 1));
        }
    }
}

#[test]
fn rows_of_words_are_those_of_the_columns() {
    let mut random = Random::new(setting("DTA_SEED", 9_000));
    let (mut accepted, mut labels) = (0, 0);
    for Asked { file, .. } in all_asked() {
        let Ok(opened) = dta::open(&file[..]) else {
            continue;
        };
        accepted += 1;
        let (k, n) = (opened.variable_count(), opened.observation_count());
        let column = |i| opened.column_words(i).unwrap().collect();
        let columns: Vec<Vec<dta::Words>> = (1..=k).map(column).collect();
        labels += columns
            .iter()
            .flatten()
            .filter(|words| **words != dta::Words::Plain)
            .count();
        rows_are_those(&opened, &[], &columns);
        if k > 0 {
            rows_are_those(&opened, &(1..=k).collect::<Vec<_>>(), &columns);
            rows_are_those(&opened, &(1..=k).rev().collect::<Vec<_>>(), &columns);
            let mixed = (0..7).map(|_| 1 + random.below(k as usize) as u64);
            rows_are_those(&opened, &mixed.collect::<Vec<_>>(), &columns);
        }
        let refused = |rows: Result<dta::RowWords, dta::Refusal>| rows.err().map(|r| r.number());
        for list in [&[0][..], &[k + 1], &[u64::MAX], &[1, k + 1], &[1, 0]] {
            assert_eq!(refused(opened.row_words(list)), Some(16));
            assert_eq!(refused(opened.row_words_from(list, 1)), Some(16));
        }
        for j in [0, n + 1, u64::MAX] {
            assert_eq!(refused(opened.row_words_from(&[], j)), Some(16));
            assert_eq!(refused(opened.row_words_from(&[1], j)), Some(16));
        }
    }
    assert!(accepted > 900 && labels > 1_000, "{accepted} {labels}");
}
