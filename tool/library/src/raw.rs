//! The proved library's functions, on numbers and slices. Each does what its contract in `crates/dta/src/lib.rt` says, for every input.
//!
//! The library needs up to 512 KiB of the calling thread's stack, `words_across` up to 1 MiB. A thread that Rust starts has 2 MiB unless told otherwise.

/// Edition, byte order, K, N, fourteen positions.
pub const LAYOUT: usize = 18;

/// The numbers of an answer: what it is, and its values.
pub const ANSWER: usize = 4;

/// The refusal of a question's number that is no question's. It is no number of document 01's table, and the safe functions never meet it.
pub const NO_QUESTION: u8 = 255;

/// The numbers of a long string: v, o, kind, place, length.
pub const LONG_STRING: usize = 5;

mod c {
    extern "C" {
        pub fn dta_check(
            file: *const u8,
            file_len: usize,
            layout: *mut u64,
            layout_len: usize,
        ) -> u8;
        pub fn dta_rewrite(
            file: *const u8,
            file_len: usize,
            edition: u64,
            order: u64,
            out: *mut u8,
            out_len: usize,
            len: *mut u64,
            len_len: usize,
        ) -> u8;
        pub fn dta_ask(
            file: *const u8,
            file_len: usize,
            layout: *const u64,
            layout_len: usize,
            question: u64,
            i: u64,
            j: u64,
            answer: *mut u64,
            answer_len: usize,
        ) -> u8;
        pub fn dta_text(
            file: *const u8,
            file_len: usize,
            layout: *const u64,
            layout_len: usize,
            question: u64,
            i: u64,
            j: u64,
            plain: *const u8,
            plain_len: usize,
            out: *mut u8,
            out_len: usize,
        ) -> usize;
        pub fn dta_ask_file(
            file: *const u8,
            file_len: usize,
            question: u64,
            i: u64,
            j: u64,
            answer: *mut u64,
            answer_len: usize,
        ) -> u8;
        pub fn dta_cells_down(
            file: *const u8,
            file_len: usize,
            layout: *const u64,
            layout_len: usize,
            i: u64,
            j: u64,
            answers: *mut u64,
            answers_len: usize,
            count: *mut u64,
            count_len: usize,
        ) -> u8;
        pub fn dta_cells_along(
            file: *const u8,
            file_len: usize,
            layout: *const u64,
            layout_len: usize,
            i: u64,
            j: u64,
            answers: *mut u64,
            answers_len: usize,
            count: *mut u64,
            count_len: usize,
        ) -> u8;
        pub fn dta_words_down(
            file: *const u8,
            file_len: usize,
            layout: *const u64,
            layout_len: usize,
            i: u64,
            j: u64,
            answers: *mut u64,
            answers_len: usize,
            count: *mut u64,
            count_len: usize,
        ) -> u8;
        pub fn dta_words_across(
            file: *const u8,
            file_len: usize,
            layout: *const u64,
            layout_len: usize,
            variables: *const u64,
            variables_len: usize,
            j: u64,
            rows: u64,
            answers: *mut u64,
            answers_len: usize,
            count: *mut u64,
            count_len: usize,
        ) -> u8;
        pub fn dta_long_list(
            file: *const u8,
            file_len: usize,
            list: *mut u64,
            list_len: usize,
            count: *mut u64,
            count_len: usize,
        ) -> u8;
        pub fn dta_set_list(
            file: *const u8,
            file_len: usize,
            list: *mut u64,
            list_len: usize,
            count: *mut u64,
            count_len: usize,
        ) -> u8;
        pub fn dta_sort_order(
            file: *const u8,
            file_len: usize,
            list: *mut u64,
            list_len: usize,
            count: *mut u64,
            count_len: usize,
        ) -> u8;
    }
}

// SAFETY, of each call below: the slices are valid for the call and apart from each other, and the library keeps none of them.

/// The verdict on a file, 0 to 13. Eighteen numbers are stored where `layout` has room for them, all zeros with a refusal; with fewer the verdict alone is given.
pub fn check(file: &[u8], layout: &mut [u64]) -> u8 {
    unsafe { c::dta_check(file.as_ptr(), file.len(), layout.as_mut_ptr(), layout.len()) }
}

/// Writes the file's dataset in that edition and byte order (1: MSF, 2: LSF) at the start of `out`: 0, or the refusal's number. The result's length
/// is stored in the first place of `len`, where it has one, 0 with a refusal.
pub fn rewrite(file: &[u8], edition: u64, order: u64, out: &mut [u8], len: &mut [u64]) -> u8 {
    unsafe {
        c::dta_rewrite(
            file.as_ptr(),
            file.len(),
            edition,
            order,
            out.as_mut_ptr(),
            out.len(),
            len.as_mut_ptr(),
            len.len(),
        )
    }
}

/// The answer to the question of that number about variable `i` and observation `j`, by a layout of eighteen numbers, right or wrong: 0, or the refusal's
/// number, [`NO_QUESTION`] where there is no such question. The answer is stored as four numbers, where `answer` has room for them.
pub fn ask(file: &[u8], layout: &[u64], question: u64, i: u64, j: u64, answer: &mut [u64]) -> u8 {
    unsafe {
        c::dta_ask(
            file.as_ptr(),
            file.len(),
            layout.as_ptr(),
            layout.len(),
            question,
            i,
            j,
            answer.as_mut_ptr(),
            answer.len(),
        )
    }
}

/// The bytes that the answer to the question of that number shows: a text of the file, or `plain` where no label words are found; none with a refusal, with
/// an answer that names none and where there is no such question. Gives how many they are; they are stored at the start of `out` where it has room for all
/// of them.
pub fn text(
    file: &[u8],
    layout: &[u64],
    question: u64,
    i: u64,
    j: u64,
    plain: &[u8],
    out: &mut [u8],
) -> usize {
    unsafe {
        c::dta_text(
            file.as_ptr(),
            file.len(),
            layout.as_ptr(),
            layout.len(),
            question,
            i,
            j,
            plain.as_ptr(),
            plain.len(),
            out.as_mut_ptr(),
            out.len(),
        )
    }
}

/// The answer to the question of that number about a file, which is checked first: the file's verdict where it is refused, else as `ask` by the file's own
/// layout. With a refused file the stored answer is that by a layout of zeros: a refusal.
pub fn ask_file(file: &[u8], question: u64, i: u64, j: u64, answer: &mut [u64]) -> u8 {
    unsafe {
        c::dta_ask_file(
            file.as_ptr(),
            file.len(),
            question,
            i,
            j,
            answer.as_mut_ptr(),
            answer.len(),
        )
    }
}

/// The cells of variable `i` from observation `j` on, four numbers each, as many as `answers` has room for: 0, or 16 where there is no such variable or no such
/// observation. How many are stored is told in the first place of `count`, where it has one; 0 with a refusal.
pub fn cells_down(
    file: &[u8],
    layout: &[u64],
    i: u64,
    j: u64,
    answers: &mut [u64],
    count: &mut [u64],
) -> u8 {
    unsafe {
        c::dta_cells_down(
            file.as_ptr(),
            file.len(),
            layout.as_ptr(),
            layout.len(),
            i,
            j,
            answers.as_mut_ptr(),
            answers.len(),
            count.as_mut_ptr(),
            count.len(),
        )
    }
}

/// The cells of observation `j` from variable `i` on. Otherwise as `cells_down`.
pub fn cells_along(
    file: &[u8],
    layout: &[u64],
    i: u64,
    j: u64,
    answers: &mut [u64],
    count: &mut [u64],
) -> u8 {
    unsafe {
        c::dta_cells_along(
            file.as_ptr(),
            file.len(),
            layout.as_ptr(),
            layout.len(),
            i,
            j,
            answers.as_mut_ptr(),
            answers.len(),
            count.as_mut_ptr(),
            count.len(),
        )
    }
}

/// The label words of the cells of variable `i` from observation `j` on. Otherwise as `cells_down`.
pub fn words_down(
    file: &[u8],
    layout: &[u64],
    i: u64,
    j: u64,
    answers: &mut [u64],
    count: &mut [u64],
) -> u8 {
    unsafe {
        c::dta_words_down(
            file.as_ptr(),
            file.len(),
            layout.as_ptr(),
            layout.len(),
            i,
            j,
            answers.as_mut_ptr(),
            answers.len(),
            count.as_mut_ptr(),
            count.len(),
        )
    }
}

/// The label words of the cells of each listed variable, one variable after another, in the same observations: `rows` from observation `j` on, or as many as there
/// are. Four numbers each, as many as `answers` has room for: 0, or 16 where the first variable of the list or observation `j` is not there, and where the list
/// is empty. A later variable that is not there is refused in its own answers. `count` as for `cells_down`.
///
/// The answers don't depend on the order of the list, the time does: the label tables of at most 32,768 variables are found in one pass where these are listed in
/// the order of their label-set names, byte by byte, as slices are ordered; else each table is looked for by itself.
pub fn words_across(
    file: &[u8],
    layout: &[u64],
    variables: &[u64],
    j: u64,
    rows: u64,
    answers: &mut [u64],
    count: &mut [u64],
) -> u8 {
    unsafe {
        c::dta_words_across(
            file.as_ptr(),
            file.len(),
            layout.as_ptr(),
            layout.len(),
            variables.as_ptr(),
            variables.len(),
            j,
            rows,
            answers.as_mut_ptr(),
            answers.len(),
            count.as_mut_ptr(),
            count.len(),
        )
    }
}

/// The verdict on a file; of an accepted one, the long strings, five numbers each. A `list` with no room for all of them is left as it came, and the answer is
/// 14. How many numbers they are, with 14 too, is stored in the first place of `count`, where it has one; 0 where the file is refused.
pub fn long_list(file: &[u8], list: &mut [u64], count: &mut [u64]) -> u8 {
    unsafe {
        c::dta_long_list(
            file.as_ptr(),
            file.len(),
            list.as_mut_ptr(),
            list.len(),
            count.as_mut_ptr(),
            count.len(),
        )
    }
}

/// The verdict on a file; of an accepted one, the label sets: for each, place and length of its name and its number of entries, and then for each entry
/// its value, as 32 bits, and place and length of its text. Otherwise as `long_list`.
pub fn set_list(file: &[u8], list: &mut [u64], count: &mut [u64]) -> u8 {
    unsafe {
        c::dta_set_list(
            file.as_ptr(),
            file.len(),
            list.as_mut_ptr(),
            list.len(),
            count.as_mut_ptr(),
            count.len(),
        )
    }
}

/// The verdict on a file; of an accepted one, the numbers of the variables by which it is sorted, in that order. Otherwise as `long_list`.
pub fn sort_order(file: &[u8], list: &mut [u64], count: &mut [u64]) -> u8 {
    unsafe {
        c::dta_sort_order(
            file.as_ptr(),
            file.len(),
            list.as_mut_ptr(),
            list.len(),
            count.as_mut_ptr(),
            count.len(),
        )
    }
}
