//! Where a file is refused, and in which words.

use independent::damage::Source;
use independent::generate::{self, Order};
use independent::random::Random;
use independent::stated::{self, case};
use independent::{check, explain, Refusal};

#[track_caller]
fn assert_refused(file: &[u8], number: u8, place: u64, what: &str) {
    let what = what.to_string();
    let refusal = Refusal {
        number,
        place,
        what,
    };
    assert_eq!(explain(file), Err(refusal));
}

/// Cases that are refused with that number, each with its place and words.
#[track_caller]
fn assert_cases(number: u8, cases: &[(&str, u64, &str)]) {
    for (name, place, what) in cases {
        assert_refused(&case(name), number, *place, what);
    }
}

/// An accepted case with other bytes at some places.
fn edited(name: &str, edits: &[(usize, &[u8])]) -> Vec<u8> {
    let mut file = case(name);
    assert_eq!(check(&file).err(), None, "{name}");
    for (place, bytes) in edits {
        file[*place..place + bytes.len()].copy_from_slice(bytes);
    }
    file
}

// Each number, by the paper's table.

#[test]
fn a_file_over_the_bound() {
    let file = vec![0; 2_147_483_648];
    assert_refused(
        &file,
        1,
        2_147_483_647,
        "the file is longer than 2,147,483,647 bytes",
    );
}

#[test]
fn another_beginning() {
    let what = "the file starts with none of bytes 113, 114, 115 and the 41 bytes \
                <stata_dta><header><release>117</release>, or the same with 118";
    assert_cases(
        2,
        &[
            ("empty", 0, what),
            ("one-byte-116", 0, what),
            ("release-cut", 0, what),
        ],
    );
    for release in ["116", "119"] {
        let file = edited("118-lsf-small", &[(28, release.as_bytes())]);
        let what = format!("{what}; its release is {release}, which isn't read");
        assert_refused(&file, 2, 0, &what);
    }
    let file = edited("118-lsf-small", &[(28, b"11x")]);
    assert_refused(&file, 2, 0, what);
}

#[test]
fn a_cut_old_file() {
    let file = case("113-msf-small");
    assert_eq!(check(&file).err(), None);
    for (length, place, what) in [
        (1, 0, "the header needs 109 bytes, 1 remains"),
        (108, 0, "the header needs 109 bytes, 108 remain"),
        (109, 109, "the variable types need 2 bytes, 0 remain"),
        (176, 111, "the names need 66 bytes, 65 remain"),
        (182, 177, "the sort list needs 6 bytes, 5 remain"),
        (184, 183, "the display formats need 24 bytes, 1 remains"),
        (219, 207, "the label-set names need 66 bytes, 12 remain"),
        (311, 273, "the variable labels need 162 bytes, 38 remain"),
        (
            438,
            435,
            "the type and length of expansion block 1 need 5 bytes, 3 remain",
        ),
        (
            442,
            440,
            "the contents of expansion block 1 need 3 bytes, 2 remain",
        ),
        (
            443,
            443,
            "the type and length of expansion block 2 need 5 bytes, 0 remain",
        ),
        (455, 448, "the observations need 8 bytes, 7 remain"),
        (
            457,
            456,
            "the length, name and padding of label block 1 need 40 bytes, 1 remains",
        ),
        (
            507,
            496,
            "the table of label block 1 needs 31 bytes, 11 remain",
        ),
        (
            557,
            527,
            "the length, name and padding of label block 2 need 40 bytes, 30 remain",
        ),
    ] {
        assert_refused(&file[..length], 3, place, what);
    }
    let formats = &case("114-lsf-typical")[..400];
    assert_refused(
        formats,
        3,
        363,
        "the display formats need 343 bytes, 37 remain",
    );
}

#[test]
fn a_cut_117_file() {
    let file = case("117-msf-typical");
    assert_eq!(check(&file).err(), None);
    for (length, place, what) in [
        (41, 41, "the tag <byteorder> needs 11 bytes, 0 remain"),
        (53, 52, "the byte order needs 3 bytes, 1 remains"),
        (71, 70, "K needs 2 bytes, 1 remains"),
        (82, 79, "N needs 4 bytes, 3 remain"),
        (
            94,
            94,
            "the length of the dataset label needs 1 byte, 0 remain",
        ),
        (100, 95, "the dataset label needs 14 bytes, 5 remain"),
        (110, 109, "the tag </label> needs 8 bytes, 1 remains"),
        (128, 128, "the length of the stamp needs 1 byte, 0 remain"),
        (145, 129, "the stamp needs 17 bytes, 16 remain"),
        (283, 172, "the map needs 112 bytes, 111 remain"),
        (286, 284, "the tag </map> needs 6 bytes, 2 remain"),
        (325, 306, "the variable types need 20 bytes, 19 remain"),
        (400, 353, "the names need 330 bytes, 47 remain"),
        (725, 704, "the sort list needs 22 bytes, 21 remain"),
        (1235, 746, "the display formats need 490 bytes, 489 remain"),
        (1300, 1265, "the label-set names need 330 bytes, 35 remain"),
        (1700, 1632, "the variable labels need 810 bytes, 68 remain"),
        (
            2483,
            2481,
            "the length of characteristic 1 needs 4 bytes, 2 remain",
        ),
        (
            2580,
            2578,
            "the contents of characteristic 2 need 22 bytes, 2 remain",
        ),
        (
            2620,
            2618,
            "the tag </characteristics> needs 18 bytes, 2 remain",
        ),
        (2642, 2642, "the observations need 6993 bytes, 0 remain"),
        (
            9664,
            9652,
            "the reference, kind and length of record 1 need 13 bytes, 12 remain",
        ),
        (
            9688,
            9687,
            "the contents of record 2 need 4 bytes, 1 remains",
        ),
        (9714, 9707, "the tag </strls> needs 8 bytes, 7 remain"),
        (
            9773,
            9734,
            "the length, name and padding of label block 1 need 40 bytes, 39 remain",
        ),
        (
            9900,
            9856,
            "the table of label block 2 needs 67 bytes, 44 remain",
        ),
        (
            10029,
            10018,
            "the tag </stata_dta> needs 12 bytes, 11 remain",
        ),
    ] {
        assert_refused(&file[..length], 3, place, what);
    }
    assert_cases(
        3,
        &[
            (
                "117-msf-ch-long",
                2485,
                "the contents of characteristic 1 need 4000000000 bytes, 7419 remain",
            ),
            (
                "117-lsf-lbl-3-table",
                9774,
                "the table of label block 1 needs 4000000000 bytes, 64 remain",
            ),
        ],
    );
}

#[test]
fn a_cut_118_file() {
    let file = case("118-lsf-small");
    assert_eq!(check(&file).err(), None);
    for (length, place, what) in [
        (86, 79, "N needs 8 bytes, 7 remain"),
        (
            99,
            98,
            "the length of the dataset label needs 2 bytes, 1 remains",
        ),
        (340, 328, "the names need 258 bytes, 12 remain"),
        (700, 633, "the display formats need 114 bytes, 67 remain"),
        (780, 776, "the label-set names need 258 bytes, 4 remain"),
        (1100, 1071, "the variable labels need 642 bytes, 29 remain"),
        (
            2231,
            2096,
            "the length, name and padding of label block 1 need 136 bytes, 135 remain",
        ),
    ] {
        assert_refused(&file[..length], 3, place, what);
    }
    let file = case("118-msf-typical");
    let records = check(&file).unwrap().positions[10] + 7;
    assert_refused(
        &file[..records as usize + 19],
        3,
        records + 3,
        "the reference, kind and length of record 1 need 17 bytes, 16 remain",
    );
}

#[test]
fn a_wrong_tag() {
    for (place, tag) in [
        (41, "<byteorder>"),
        (55, "</byteorder>"),
        (67, "<K>"),
        (72, "</K>"),
        (76, "<N>"),
        (83, "</N>"),
        (87, "<label>"),
        (95, "</label>"),
        (103, "<timestamp>"),
        (132, "</timestamp>"),
        (144, "</header>"),
        (153, "<map>"),
        (270, "</map>"),
        (276, "<variable_types>"),
        (296, "</variable_types>"),
        (313, "<varnames>"),
        (389, "</varnames>"),
        (400, "<sortlist>"),
        (416, "</sortlist>"),
        (427, "<formats>"),
        (534, "</formats>"),
        (544, "<value_label_names>"),
        (629, "</value_label_names>"),
        (649, "<variable_labels>"),
        (828, "</variable_labels>"),
        (846, "<characteristics>"),
        (874, "</ch>"),
        (897, "<data>"),
        (911, "</data>"),
        (918, "<strls>"),
        (933, "<value_labels>"),
        (1023, "</lbl>"),
        (1105, "</lbl>"),
        (1126, "</stata_dta>"),
    ] {
        let last = place + tag.len() - 1;
        let file = edited("117-lsf-small", &[(last, b".")]);
        let what = format!("the tag {tag} is due here");
        assert_refused(&file, 4, place as u64, &what);
    }
    // An item might stand there too.
    for (place, what) in [
        (863, "<ch> or the tag </characteristics> is due here"),
        (879, "<ch> or the tag </characteristics> is due here"),
        (925, "GSO or the tag </strls> is due here"),
        (947, "<lbl> or the tag </value_labels> is due here"),
        (1029, "<lbl> or the tag </value_labels> is due here"),
        (1111, "<lbl> or the tag </value_labels> is due here"),
    ] {
        let file = edited("117-lsf-small", &[(place, b".")]);
        assert_refused(&file, 4, place as u64, what);
    }
    assert_cases(
        4,
        &[
            ("117-msf-ch-endtag", 2487, "the tag </ch> is due here"),
            ("117-msf-tag-open-map", 167, "the tag <map> is due here"),
            ("117-lsf-end-tag", 10018, "the tag </stata_dta> is due here"),
        ],
    );
}

#[test]
fn a_wrong_old_header() {
    assert_cases(
        5,
        &[
            (
                "113-msf-bad-head-109",
                1,
                "the byte order is 9, and must be 1 or 2",
            ),
            ("114-msf-head2-2", 2, "the file type is 2, and must be 1"),
            ("113-msf-k-over", 4, "K is 32768, and may be at most 32,767"),
            (
                "114-lsf-n-over",
                6,
                "N is 2147483648, and may be at most 2,147,483,647",
            ),
            ("113-lsf-k0-n1", 6, "N is 3, and must be 0 where K is 0"),
            (
                "113-lsf-label-unended",
                10,
                "the dataset label has no zero byte in its 81 bytes",
            ),
            (
                "113-msf-stamp-zero-inside",
                91,
                "the stamp has 6 bytes before its first zero, and must have 0 or 17",
            ),
            (
                "113-msf-stamp-17",
                91,
                "byte 18 of the stamp is 120, and must be zero",
            ),
            (
                "114-lsf-stamp-empty-17",
                91,
                "byte 18 of the stamp is 120, and must be zero",
            ),
        ],
    );
    let short = edited("113-msf-small", &[(92, &[0])]);
    assert_refused(
        &short,
        5,
        91,
        "the stamp has 1 byte before its first zero, and must have 0 or 17",
    );
}

/// What comes first in the file is named.
#[test]
fn an_old_header_with_more_than_one_error() {
    let mut file = case("113-msf-small");
    file[10..109].fill(b'x');
    let label = "the dataset label has no zero byte in its 81 bytes";
    assert_refused(&file, 5, 10, label);
    file[6] = 0x80;
    let n = "N is 2147483650, and may be at most 2,147,483,647";
    assert_refused(&file, 5, 6, n);
    file[4] = 0xff;
    let k = "K is 65282, and may be at most 32,767";
    assert_refused(&file, 5, 4, k);
    file[2] = 7;
    assert_refused(&file, 5, 2, "the file type is 7, and must be 1");
    file[1] = 0;
    assert_refused(&file, 5, 1, "the byte order is 0, and must be 1 or 2");
}

#[test]
fn a_wrong_117_header() {
    assert_cases(
        5,
        &[
            (
                "117-msf-order-xsf",
                52,
                "the byte order is \"XSF\", and must be MSF or LSF",
            ),
            (
                "117-msf-k-over",
                70,
                "K is 32768, and may be at most 32,767",
            ),
            (
                "117-msf-n-over",
                79,
                "N is 2147483648, and may be at most 2,147,483,647",
            ),
            ("117-lsf-k0-n1", 79, "N is 3, and must be 0 where K is 0"),
            (
                "117-msf-label-over",
                94,
                "the length of the dataset label is 81, and must be at most 80",
            ),
            (
                "117-msf-label-zero",
                94,
                "byte 2 of the dataset label is zero, and none may be",
            ),
            (
                "117-lsf-stamp-16",
                128,
                "the length of the stamp is 16, and must be 0 or 17",
            ),
            (
                "117-lsf-stamp-zero",
                128,
                "byte 7 of the stamp is zero, and none may be",
            ),
        ],
    );
    let order = edited("117-lsf-small", &[(52, b"\0\"\xff")]);
    assert_refused(
        &order,
        5,
        52,
        r#"the byte order is "\x00\"\xff", and must be MSF or LSF"#,
    );
}

#[test]
fn a_wrong_118_header() {
    assert_cases(
        5,
        &[
            (
                "118-lsf-n-bit-40",
                79,
                "N is 1099511627779, and may be at most 2,147,483,647",
            ),
            (
                "118-msf-n-bit-63",
                79,
                "N is 9223372036854775811, and may be at most 2,147,483,647",
            ),
            (
                "118-msf-k0-n-high",
                79,
                "N is 4294967296, and may be at most 2,147,483,647",
            ),
            (
                "118-msf-label-over",
                98,
                "the length of the dataset label is 321, and must be at most 320",
            ),
            (
                "118-msf-label-zero",
                98,
                "byte 2 of the dataset label is zero, and none may be",
            ),
        ],
    );
}

/// A text of 118 that fills its field.
#[test]
fn a_wrong_text_field_of_118() {
    let x = [b'x'; 321];
    for (place, width, what) in [
        (328, 129, "the name of variable 1"),
        (633 + 57, 57, "the display format of variable 2"),
        (776 + 129, 129, "the label-set name of variable 2"),
        (1071 + 321, 321, "the variable label of variable 2"),
        (2100, 129, "the name of label block 1"),
    ] {
        let file = edited("118-lsf-small", &[(place, &x[..width])]);
        let what = format!("{what} has no zero byte in its {width} bytes");
        assert_refused(&file, 7, place as u64, &what);
        let ended = [&x[..width - 1], &[0]].concat();
        let file = edited("118-lsf-small", &[(place, &ended)]);
        assert_eq!(check(&file).err(), None, "{place}");
    }
}

/// Each number of a reference is read whole.
#[test]
fn a_wrong_reference_of_118() {
    assert_cases(
        11,
        &[
            (
                "118-lsf-strl-cell-o-bit-47",
                10080,
                "cell (variable 9, observation 1) refers to (9,140737488355329), \
                 which comes after it",
            ),
            (
                "118-msf-strl-rec-o-bit-63",
                14772,
                "a record of (9,9223372036854775809), which no cell asks for",
            ),
            (
                "118-lsf-strl-rec-v-bit-31",
                14772,
                "a record of (2147483657,1), which no cell asks for",
            ),
        ],
    );
}

#[test]
fn an_unknown_type() {
    assert_cases(
        6,
        &[
            (
                "113-lsf-type-zero",
                109,
                "variable 1 has the unknown type code 0",
            ),
            (
                "117-lsf-type-x",
                306,
                "variable 1 has the unknown type code 65531",
            ),
        ],
    );
    let old = edited("114-lsf-typical", &[(111, &[246]), (113, &[0])]);
    let what = "variable 3 has the unknown type code 246";
    assert_refused(&old, 6, 111, what);
    let new = edited("117-lsf-typical", &[(324, &[0xfe, 0x07])]);
    let what = "variable 10 has the unknown type code 2046";
    assert_refused(&new, 6, 324, what);
}

#[test]
fn a_wrong_text_field() {
    assert_cases(
        7,
        &[
            ("113-lsf-name-empty", 314, "the name of variable 7 is empty"),
            (
                "114-msf-name-unended",
                314,
                "the name of variable 7 has no zero byte in its 33 bytes",
            ),
            (
                "113-lsf-fmt-unended",
                363,
                "the display format of variable 1 has no zero byte in its 12 bytes",
            ),
            (
                "114-lsf-fmt-unended",
                363,
                "the display format of variable 1 has no zero byte in its 49 bytes",
            ),
            (
                "117-msf-set-unended",
                1265,
                "the label-set name of variable 1 has no zero byte in its 33 bytes",
            ),
            (
                "113-msf-vlab-unended",
                678,
                "the variable label of variable 1 has no zero byte in its 81 bytes",
            ),
            (
                "113-msf-lbl-name-empty",
                2167,
                "the name of label block 1 is empty",
            ),
            (
                "117-msf-lbl-name-unended",
                9738,
                "the name of label block 1 has no zero byte in its 33 bytes",
            ),
        ],
    );
    let x = [b'x'; 81];
    for (place, bytes, what) in [
        (
            323,
            &x[..33],
            "the name of variable 1 has no zero byte in its 33 bytes",
        ),
        (356, &[0], "the name of variable 2 is empty"),
        (
            485,
            &x[..49],
            "the display format of variable 2 has no zero byte in its 49 bytes",
        ),
        (
            596,
            &x[..33],
            "the label-set name of variable 2 has no zero byte in its 33 bytes",
        ),
        (
            747,
            &x,
            "the variable label of variable 2 has no zero byte in its 81 bytes",
        ),
        (1038, &[0], "the name of label block 2 is empty"),
    ] {
        let file = edited("117-lsf-small", &[(place, bytes)]);
        assert_refused(&file, 7, place as u64, what);
    }
    // The first of two.
    let both = edited("117-lsf-small", &[(323, &x[..33]), (356, &[0])]);
    let what = "the name of variable 1 has no zero byte in its 33 bytes";
    assert_refused(&both, 7, 323, what);
    let both = edited("117-lsf-small", &[(323, &[0]), (356, &x[..33])]);
    assert_refused(&both, 7, 323, "the name of variable 1 is empty");
}

#[test]
fn a_wrong_sort_list() {
    assert_cases(
        8,
        &[
            ("113-msf-sort-range", 347, "sort entry 1 is 8, and K is 7"),
            ("117-msf-sort-range", 704, "sort entry 1 is 11, and K is 10"),
            ("113-lsf-sort-dup", 351, "sort entry 3 is 1 a second time"),
            ("117-lsf-sort-dup", 708, "sort entry 3 is 1 a second time"),
            (
                "114-lsf-sort-unended",
                361,
                "the sort list has no zero entry, and its last is 1",
            ),
            (
                "117-msf-sort-unended",
                724,
                "the sort list has no zero entry, and its last is 1",
            ),
        ],
    );
    let none = edited("117-lsf-k0", &[]);
    let place = none
        .windows(10)
        .position(|tag| tag == b"<sortlist>")
        .unwrap()
        + 10;
    let none = edited("117-lsf-k0", &[(place, &[9, 0])]);
    let what = "the sort list has no zero entry, and its last is 9";
    assert_refused(&none, 8, place as u64, what);
}

#[test]
fn a_wrong_expansion_block() {
    assert_cases(
        9,
        &[
            (
                "113-msf-exp-0-huge",
                1245,
                "expansion block 1 is of type 0 with length 4000000000, not 0",
            ),
            (
                "113-lsf-exp-0-len",
                1253,
                "expansion block 2 is of type 0 with length 1, not 0",
            ),
        ],
    );
    let second = edited("113-msf-small", &[(447, &[17])]);
    let what = "expansion block 2 is of type 0 with length 17, not 0";
    assert_refused(&second, 9, 443, what);
}

#[test]
fn a_wrong_map() {
    for (item, what) in [
        "map item 1 says 7, and the file starts at 0",
        "map item 2 says 7, and the map starts at 153",
        "map item 3 says 7, and the variable types start at 276",
        "map item 4 says 7, and the names start at 313",
        "map item 5 says 7, and the sort list starts at 400",
        "map item 6 says 7, and the display formats start at 427",
        "map item 7 says 7, and the label-set names start at 544",
        "map item 8 says 7, and the variable labels start at 649",
        "map item 9 says 7, and the characteristics start at 846",
        "map item 10 says 7, and the data start at 897",
        "map item 11 says 7, and the long strings start at 918",
        "map item 12 says 7, and the value labels start at 933",
        "map item 13 says 7, and the tag </stata_dta> starts at 1126",
        "map item 14 says 7, and the file ends at 1138",
    ]
    .iter()
    .enumerate()
    {
        let place = 158 + 8 * item;
        // The last item is wrong too, and named last.
        let edits: [(usize, &[u8]); 2] = [(262, &[7; 8]), (place, &[7, 0, 0, 0, 0, 0, 0, 0])];
        assert_refused(&edited("117-lsf-small", &edits), 10, place as u64, what);
    }
    assert_cases(
        10,
        &[
            (
                "117-msf-map-4",
                204,
                "map item 5 says 695, and the sort list starts at 694",
            ),
            (
                "117-lsf-map-high",
                276,
                "map item 14 says 4294977326, and the file ends at 10030",
            ),
        ],
    );
}

#[test]
fn a_wrong_strl_cell() {
    assert_cases(
        11,
        &[
            (
                "117-msf-strl-forward",
                4957,
                "cell (variable 9, observation 1) refers to (9,2), which comes after it",
            ),
            (
                "117-lsf-strl-forward-v",
                4957,
                "cell (variable 9, observation 1) refers to (10,1), which comes after it",
            ),
            (
                "117-msf-strl-nonstrl",
                4957,
                "cell (variable 9, observation 1) refers to (1,1), \
                 which is no cell of a strL variable",
            ),
            (
                "117-lsf-strl-o0",
                4957,
                "cell (variable 9, observation 1) refers to (9,0), \
                 which is no cell of a strL variable",
            ),
            (
                "117-lsf-strl-not-self",
                7288,
                "cell (variable 9, observation 2) refers to (9,1), which doesn't hold itself",
            ),
        ],
    );
}

#[test]
fn a_wrong_record() {
    assert_cases(
        11,
        &[
            (
                "117-lsf-strl-missing-record",
                9649,
                "the record of (9,1) is missing",
            ),
            (
                "117-msf-strl-order",
                9649,
                "the record of (9,1) is due here, before that of (10,1)",
            ),
            (
                "117-lsf-strl-extra-record",
                9649,
                "a record of (9,1), which no cell asks for",
            ),
            (
                "117-msf-strl-00-record",
                9649,
                "a record of (0,0), which no cell asks for",
            ),
            (
                "117-lsf-strl-kind-131",
                9649,
                "the record of (9,1) has kind 131, and must have 129 or 130",
            ),
            (
                "117-msf-strl-130-none",
                9649,
                "the text record of (9,1) has 0 bytes, and needs at least 2",
            ),
            (
                "117-msf-strl-130-inner",
                9649,
                "the text record of (9,1) doesn't end with its only zero",
            ),
            (
                "117-lsf-strl-130-unended",
                9649,
                "the text record of (9,1) doesn't end with its only zero",
            ),
        ],
    );
}

/// Three records, of (9,1), (10,2) and (10,3).
#[test]
fn records_too_many_or_too_few() {
    let file = case("117-msf-typical");
    assert_eq!(check(&file).err(), None);
    let records = [&file[9649..9671], &file[9671..9691], &file[9691..9707]];
    let of = |chosen: &[usize]| {
        let mut changed = file[..9649].to_vec();
        changed.extend(chosen.iter().flat_map(|record| records[*record]));
        changed.extend(&file[9707..]);
        changed
    };
    assert_eq!(of(&[0, 1, 2]), file);
    for (chosen, place, what) in [
        (&[][..], 9649, "the record of (9,1) is missing"),
        (&[0, 1], 9691, "the record of (10,3) is missing"),
        (
            &[0, 2],
            9671,
            "the record of (10,2) is due here, before that of (10,3)",
        ),
        (
            &[1, 0, 2],
            9649,
            "the record of (9,1) is due here, before that of (10,2)",
        ),
        (&[0, 0, 1, 2], 9671, "a second record of (9,1)"),
        (&[0, 1, 2, 1], 9707, "a second record of (10,2)"),
    ] {
        assert_refused(&of(chosen), 11, place, what);
    }
    // (10,3) doesn't name itself any more.
    let left = edited("117-msf-typical", &[(9627, &[0; 8])]);
    let what = "a record of (10,3), which no cell asks for";
    assert_refused(&left, 11, 9691, what);
    // A cell after (9,1) that doesn't name itself.
    let other = edited("117-msf-typical", &[(9659, &[3])]);
    let what = "a record of (9,3), which no cell asks for";
    assert_refused(&other, 11, 9649, what);
    // The cells come before the records in the file.
    let kind = edited("117-msf-typical", &[(9660, &[0])]);
    let what = "the record of (9,1) has kind 0, and must have 129 or 130";
    assert_refused(&kind, 11, 9649, what);
    let cell = edited("117-msf-typical", &[(9660, &[0]), (9634, &[4])]);
    let what = "cell (variable 10, observation 3) refers to (10,4), which comes after it";
    assert_refused(&cell, 11, 9627, what);
}

#[test]
fn a_record_of_one_byte() {
    let samples = stated::all();
    let sample = samples
        .iter()
        .find(|stated| stated.name == "samples/haven-117-lsf-strl-empty.dta")
        .expect("the sample is there");
    assert_refused(
        &sample.file,
        11,
        4221,
        "the text record of (3,2) has 1 byte, and needs at least 2",
    );
}

#[test]
fn a_wrong_label_table() {
    assert_cases(
        12,
        &[
            (
                "113-msf-lbl-len-0",
                2203,
                "label block 1: the table has 0 bytes, and needs at least 8",
            ),
            (
                "114-msf-lbl-len-7",
                2462,
                "label block 1: the table has 7 bytes, and needs at least 8",
            ),
            (
                "113-msf-lbl-n-huge",
                2203,
                "label block 1: the table has 536870912 entries, and may have at most 65,536",
            ),
            (
                "117-msf-lbl-n-more",
                9774,
                "label block 1: the table has 31 bytes, and needs 39 (entries 3, text length 7)",
            ),
            (
                "113-lsf-lbl-len-less",
                2203,
                "label block 1: the table has 30 bytes, and needs 31 (entries 2, text length 7)",
            ),
            (
                "117-msf-lbl-txtlen-more",
                9774,
                "label block 1: the table has 31 bytes, and needs 32 (entries 2, text length 8)",
            ),
            (
                "114-lsf-lbl-offset",
                2474,
                "label block 1: the offset of entry 2 is 7, and the text has 7 bytes",
            ),
            (
                "117-msf-lbl-txt-no-text",
                9782,
                "label block 1: the offset of entry 1 is 0, and the text has 0 bytes",
            ),
            (
                "113-lsf-lbl-no-zero",
                2215,
                "label block 1: the offset of entry 2 is 4, with no zero byte at or after it",
            ),
            (
                "117-lsf-lbl-equal",
                9794,
                "label block 1: the value of entry 2 is 1, not above the 1 of entry 1",
            ),
            (
                "114-msf-lbl-unsigned",
                2482,
                "label block 1: the value of entry 2 is -1, not above the 1 of entry 1",
            ),
        ],
    );
    let long: u32 = 5_308_417;
    let many: u32 = 65_537;
    let edits: [(usize, &[u8], u64, &str); 6] = [
        (
            567,
            &many.to_be_bytes(),
            567,
            "label block 2: the table has 65537 entries, and may have at most 65,536",
        ),
        (
            571,
            &long.to_be_bytes(),
            571,
            "label block 2: the text length is 5308417, and may be at most 5,308,416",
        ),
        (
            578,
            &[9],
            575,
            "label block 2: the offset of entry 1 is 9, and the text has 7 bytes",
        ),
        (
            597,
            b"x",
            579,
            "label block 2: the offset of entry 2 is 4, with no zero byte at or after it",
        ),
        (
            586,
            &[5],
            587,
            "label block 2: the value of entry 2 is 2, not above the 5 of entry 1",
        ),
        // Both an offset and a value: the offsets come first.
        (
            582,
            &[8, 0, 0, 0, 3],
            579,
            "label block 2: the offset of entry 2 is 8, and the text has 7 bytes",
        ),
    ];
    for (at, bytes, place, what) in edits {
        let file = edited("113-msf-small", &[(at, bytes)]);
        assert_refused(&file, 12, place, what);
    }
}

#[test]
fn bytes_after_the_end() {
    assert_cases(
        13,
        &[("117-msf-tail", 10030, "1 byte follows </stata_dta>")],
    );
    let mut file = case("117-lsf-small");
    file.extend(b"\r\n");
    assert_refused(&file, 13, 1138, "2 bytes follow </stata_dta>");
}

// Any file.

/// The numbers in the words. A bound such as 65,536 counts as two.
fn numbers(what: &str) -> Vec<i64> {
    let mut numbers = Vec::new();
    let mut rest = what;
    while let Some(start) = rest.find(|letter: char| letter.is_ascii_digit()) {
        let negative = rest[..start].ends_with(" -");
        rest = &rest[start..];
        let end = rest.find(|letter: char| !letter.is_ascii_digit());
        let (digits, after) = rest.split_at(end.unwrap_or(rest.len()));
        // A map item may be of 64 bits.
        let number = digits.parse::<u64>().unwrap() as i64;
        numbers.push(if negative { -number } else { number });
        rest = after;
    }
    numbers
}

/// The tag that the words name.
fn tag(what: &str) -> Option<&str> {
    what.split("the tag ").nth(1)?.split(' ').next()
}

/// The words say what stands at the place.
fn says_what_stands_there(file: &[u8], refusal: &Refusal) -> bool {
    let Some(here) = file.get(refusal.place as usize..) else {
        return false;
    };
    let what = refusal.what.as_str();
    let said = numbers(what);
    let msf = match file.first() {
        Some(b'<') => file.get(52) == Some(&b'M'),
        _ => file.get(1) == Some(&1),
    };
    let order = if msf { Order::Msf } else { Order::Lsf };
    let is_118 = file.get(28..31) == Some(b"118");
    let number = |place: usize, width: usize| order.number(&here[place..place + width]) as i64;
    let signed = |place: usize| number(place, 4) as u32 as i32 as i64;
    match refusal.number {
        2 => refusal.place == 0,
        3 => {
            let [.., needed, remain] = said[..] else {
                return false;
            };
            let of_tag = tag(what).is_none_or(|tag| tag.len() as i64 == needed);
            of_tag && here.len() as i64 == remain && needed > remain
        }
        4 => {
            let tag = tag(what).expect("a tag is named");
            let item = what.split(" or ").next().filter(|item| *item != what);
            here.len() >= tag.len()
                && !here.starts_with(tag.as_bytes())
                && item.is_none_or(|item| !here.starts_with(item.as_bytes()))
        }
        5 => match what.split(' ').next() {
            Some("K") => number(0, 2) == said[0],
            Some("N") => number(0, if is_118 { 8 } else { 4 }) == said[0],
            _ => true,
        },
        6 => {
            let width = if file[0] == b'<' { 2 } else { 1 };
            number(0, width) == said[1]
        }
        7 if what.ends_with(" is empty") => here[0] == 0,
        7 => !here[..said[1] as usize].contains(&0),
        8 if what.starts_with("sort entry") => number(0, 2) == said[1],
        8 => number(0, 2) == said[0],
        9 => here[0] == 0 && number(1, 4) == said[2] && said[2] != 0,
        10 => number(0, 8) == said[1] && said[1] != said[2],
        11 if what.starts_with("cell") => {
            let v = if is_118 { 2 } else { 4 };
            (number(0, v), number(v, 8 - v)) == (said[2], said[3])
        }
        11 if what.ends_with("is missing") => !here.starts_with(b"GSO"),
        11 => {
            let name = match what.contains("is due here") {
                true => &said[2..4],
                false => &said[..2],
            };
            let kind = what.contains("has kind");
            let o = if is_118 { 8 } else { 4 };
            here.starts_with(b"GSO")
                && [number(3, 4), number(7, o)] == name[..]
                && (!kind || i64::from(here[7 + o]) == said[2])
        }
        12 if what.contains(": the offset") => number(0, 4) == said[2],
        12 if what.contains(": the value") => signed(0) == said[2] && signed(0) <= said[3],
        12 if what.contains(" entries, and") => number(0, 4) == said[1],
        12 if what.contains(": the text length") => number(0, 4) == said[1],
        12 if what.contains("(entries") => (number(0, 4), number(4, 4)) == (said[3], said[4]),
        12 => said[1] < 8,
        13 => {
            let before = &file[..refusal.place as usize];
            before.ends_with(b"</stata_dta>") && here.len() as i64 == said[0]
        }
        _ => false,
    }
}

/// How often each number was given.
struct Counts([u64; 14]);

impl Counts {
    fn explain(&mut self, file: &[u8], name: &str) {
        let verdict = explain(file);
        let number = verdict.as_ref().map_err(|refusal| refusal.number);
        assert_eq!(
            number,
            check(file).as_ref().map_err(|number| *number),
            "{name}"
        );
        let Err(refusal) = verdict else {
            self.0[0] += 1;
            return;
        };
        self.0[usize::from(refusal.number)] += 1;
        assert!(refusal.place <= file.len() as u64, "{name}: {refusal:?}");
        assert!(!refusal.what.is_empty(), "{name}: {refusal:?}");
        assert!(
            says_what_stands_there(file, &refusal),
            "{name}: {refusal:?}"
        );
    }
}

#[test]
fn every_stated_file_is_explained() {
    let mut counts = Counts([0; 14]);
    for stated in stated::all() {
        counts.explain(&stated.file, &stated.name);
    }
    assert!(
        counts.0[2..].iter().all(|count| *count > 0),
        "{:?}",
        counts.0
    );
}

#[test]
fn every_beginning_is_explained() {
    let mut counts = Counts([0; 14]);
    for name in [
        "113-msf-small",
        "114-lsf-typical",
        "115-lsf-sort-all",
        "117-msf-typical",
        "118-lsf-small",
    ] {
        let file = case(name);
        for length in 0..file.len() {
            counts.explain(&file[..length], &format!("{name}, {length} bytes"));
        }
    }
    assert!(counts.0[3] > 10_000, "{:?}", counts.0);
}

#[test]
fn damaged_files_are_explained() {
    let stated: Vec<Source> = stated::all()
        .into_iter()
        .filter(|stated| stated.file.len() < 20_000)
        .filter_map(|stated| {
            let layout = check(&stated.file).ok()?;
            Some(Source::new(stated.file, &layout))
        })
        .collect();
    let mut counts = Counts([0; 14]);
    for seed in 0..2_000 {
        let random = &mut Random::new(seed);
        let source = if random.once_in(4) {
            stated[random.below(stated.len())].clone()
        } else {
            let file = generate::file(random);
            let layout = check(&file).expect("a generated file is accepted");
            Source::new(file, &layout)
        };
        for copy in 0..6 {
            counts.explain(&source.damaged(random), &format!("{seed}-{copy}"));
            let in_place = source.damaged_in_place(random);
            counts.explain(&in_place, &format!("{seed}-{copy}, in place"));
        }
    }
    let least = counts.0[2..].iter().min();
    assert!(least >= Some(&20), "{:?}", counts.0);
}
