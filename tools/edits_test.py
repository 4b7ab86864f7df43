#!/usr/bin/env python3
"""Tests of edits.py: logs that it must take, and logs and edit files that it must refuse."""
import contextlib
import io
import os
import tempfile
import unittest
import unittest.mock

import edits

SOURCE = """ghost use c.specs.Path.{◌≡◌};

// One more.
pub fn more(n: u8) -> u8
    requires { n < 255 }
    ensures { result ≡ n + 1 }
{
    n + 1
}

fn twice(n: u8) -> u8
    ensures { result ≡ double n }
{
    let m = n;
    n + m
}

fn calls(n: u8) -> u8 {
    more(n)
}

fn small(n: u8) -> u8
    ensures { result ≡ small_of n }
{
    if n < 9 {
        return 1;
    }
    0
}
"""
SMALL_ANSWERS = """use c.proofs.small.Goals as goal

pub returns-then-n-lt9 : goal.returns-then-n-lt9
returns-then-n-lt9 c = below c.if-n-lt9.true

at_least : 9 ≤ 9
at_least = tt
"""
MORE = """# more_by_two: one is added
# refused: more returns: `2` (expected)
file: src/lib.rt
old:     n + 1
new:     n + 2
"""
TWICE = """# twice_nothing: a number is added to itself
# refused: twice returns: n + 0 ≡ double n
file: src/lib.rt
old:     let m = n;
new:     let m = 0;
"""
SMALL = """# small_to_7: 8 is small
# refused: small returns-then-n-lt8: `9` (expected)
file: src/lib.rt
old: n < 9
new: n < 8
file: proofs/small/Answers.antt
old: pub returns-then-n-lt9 : goal.returns-then-n-lt9
new: pub returns-then-n-lt8 : goal.returns-then-n-lt8
old: returns-then-n-lt9 c = below c.if-n-lt9.true
new: returns-then-n-lt8 c = below c.if-n-lt8.true
"""
ADDED = """# more_for_few: one is added
# refused: more returns: few.result
file: src/lib.rt
old: ghost use c.specs.Path.{◌≡◌};
new: ghost use c.specs.Path.{◌≡◌}; ghost use c.specs.Few.{few_of};
old: // One more.
new: fn few(n: u8) -> u8 ensures { result ≡ few_of n } { if n < 9 { n } else { 0 } }
old:     n + 1
new:     few(n) + 1
"""
RULE = """# rule_less: twice is two times
# refused: Laws double_is: `3` (expected)
# also: Laws double_more, twice returns
file: specs/Twice.antt
old: double n = 2 * n
new: double n = 3 * n
"""
MORE_FAILS = "./proofs/more/Answers.antt:3:9: error: `returns`: the two types differ only where one has `2` (expected)\n  and the other has `1` (found)\n"
FEW_FAILS = "./proofs/more/Answers.antt:3:9: error: `returns`: expected type `c.few.result + 1 ≡ n + 1`\n"
SMALL_FAILS = "./proofs/small/Answers.antt:4:9: error: `returns-then-n-lt8`: one has `9` (expected)\n"
SMALL_UNFIT = "./proofs/small/Answers.antt:4:9: error: `returns-then-n-lt9`: `goal.returns-then-n-lt9`: module `c.proofs.small.Goals` has no `returns-then-n-lt9` that can be named from here\n"
RESTS = "./proofs/more/Answers.antt:5:9: error: 1 declaration that depends on `returns`, which was rejected, was not checked: more_spec\n"
MORE_LINE = "fn c::more: not proved\n"
SMALL_LINE = "fn c::small: not proved\n"
TWICE_LINE = "fn c::twice: no proof: expected answers in ./proofs/twice/Answers.antt; `search` did not prove `returns`\n"
TWICE_GOAL = "note: `returns` of proofs/twice/Answers.antt must prove: n + 0\n  ≡ double n\n  names you can use, by step:\n  | c: .args\n"
CALLS_LINE = "fn c::calls: not proved; it calls `c::more`, which is not proved\n"
LAWS_FAIL = "./proofs/Laws.antt:3:9: error: `double_is`: one has `3` (expected)\n./proofs/Laws.antt:9:9: error: `double_more`: no\n"
END = "logic=not-proved\n"


class Judged(unittest.TestCase):
    def setUp(self):
        self.folder = tempfile.TemporaryDirectory()
        self.addCleanup(self.folder.cleanup)
        for path, text in (("src/lib.rt", SOURCE), ("specs/Twice.antt", "double n = 2 * n\n"), ("proofs/small/Answers.antt", SMALL_ANSWERS), ("proofs/Laws.antt", "look 1\n")):
            edits.write(os.path.join(self.folder.name, path), text)

    def form(self, text):
        return edits.form_faults(edits.edits_of(text), self.folder.name)

    def judge(self, text, *log):
        self.assertEqual(self.form(text), [])
        return edits.judge(edits.edits_of(text), "".join(log), self.folder.name)

    def refused(self, faults, words):
        self.assertEqual(len(faults), 1, faults)
        self.assertIn(words, faults[0])

    # what must be taken

    def test_two_functions_of_one_check(self):
        self.assertEqual(self.judge(MORE + "\n" + TWICE, MORE_FAILS, RESTS, MORE_LINE, TWICE_LINE, CALLS_LINE, TWICE_GOAL, END), [])

    def test_a_definition_and_what_it_breaks(self):
        self.assertEqual(self.judge(RULE, LAWS_FAIL, TWICE_LINE, TWICE_GOAL, END), [])

    def test_an_answer_that_is_renamed_with_its_place(self):
        self.assertEqual(self.judge(SMALL, SMALL_FAILS, SMALL_LINE, END), [])
        self.assertEqual(self.judge(SMALL + "\n" + TWICE, SMALL_FAILS, SMALL_LINE, TWICE_LINE, TWICE_GOAL, END), [])

    def test_a_function_that_is_added(self):
        self.assertEqual(self.judge(ADDED, FEW_FAILS, "fn c::few: proved\n", MORE_LINE, CALLS_LINE, END), [])

    # what must be refused: logs

    def test_an_added_function_that_is_not_proved(self):
        self.refused(self.judge(ADDED, FEW_FAILS, "fn c::few: no proof\n", MORE_LINE, END), "few is no proof")

    def test_a_log_without_the_error(self):
        self.refused(self.judge(MORE + "\n" + TWICE, MORE_FAILS, RESTS, MORE_LINE, END), "twice is not refused")

    def test_an_edit_that_is_not_refused(self):
        self.refused(self.judge(MORE, "fn c::more: proved\nlogic=proved functions=1\n"), "did not refuse")
        self.refused(self.judge(MORE, ""), "did not refuse")
        self.refused(self.judge(MORE, "edits: a text stands 2 times in src/lib.rt: n\n"), "did not refuse")

    def test_a_wrong_reason(self):
        self.refused(self.judge(MORE, MORE_FAILS.replace("`2`", "`7`"), RESTS, MORE_LINE, END), "for another reason")
        self.refused(self.judge(TWICE, TWICE_LINE, TWICE_GOAL.replace("n + 0", "n"), END), "for another reason")
        self.refused(self.judge(TWICE, TWICE_LINE, END), "for another reason")

    def test_a_wrong_place(self):
        self.refused(self.judge(MORE, MORE_FAILS.replace("`returns`", "`overflow_add-result`"), MORE_LINE, END), "first refused elsewhere")

    def test_a_fact_that_goals_share(self):
        before = MORE_FAILS.replace("`returns`", "`calls-requires`")
        self.assertEqual(self.judge(MORE, before, MORE_FAILS, MORE_LINE, END), [])
        self.refused(self.judge(MORE, before.replace("`2`", "`7`"), MORE_FAILS, MORE_LINE, END), "first refused elsewhere")
        self.refused(self.judge(MORE, before, MORE_FAILS.replace("`2`", "`7`"), MORE_LINE, END), "for another reason")

    def test_a_wrong_form(self):
        self.refused(self.judge(SMALL, SMALL_UNFIT, SMALL_FAILS, SMALL_LINE, END), "for its form alone")
        self.refused(self.judge(SMALL, SMALL_FAILS, SMALL_UNFIT, SMALL_LINE, END), "doesn't fit the code")
        for text in ("record `c.proofs.more.Lts.Else1` has no field `got`, `2` (expected)", "`goal.returns`: module `c.proofs.more.Goals` has no `returns` that can be named from here, `2` (expected)", "`law` is not in scope: `2` (expected)"):
            self.refused(self.judge(MORE, "./proofs/more/Answers.antt:2:9: error: `returns`: " + text + "\n", MORE_LINE, END), "for its form alone")

    def test_advice_is_no_wrong_form(self):
        self.assertEqual(self.judge(MORE, MORE_FAILS + "  `e` is not in scope here, so what is shown does not paste back\n", MORE_LINE, END), [])

    def test_a_proof_with_something_undetermined(self):
        unsolved = "./proofs/more/Answers.antt:2:1: `returns` is not admitted: unsolved\n./proofs/more/Answers.antt:2:9: unsolved ?1 in `returns`: `2` (expected)\n"
        self.refused(self.judge(MORE, unsolved, MORE_LINE, END), "for its form alone")
        self.refused(self.judge(MORE, MORE_FAILS, unsolved.replace("proofs/more", "proofs/calls"), MORE_LINE, CALLS_LINE, END), "calls fails too")

    def test_only_by_depending(self):
        self.refused(self.judge(RULE, LAWS_FAIL.replace("`double_more`: no", "1 declaration that depends on `double_is`, which was rejected, was not checked: double_more"), TWICE_LINE, TWICE_GOAL, END), "Laws double_more is not refused")
        rests = MORE_FAILS.replace("the two types", "`two` was not admitted (it has holes or undetermined implicits, or was rejected), so this cannot be checked")
        self.refused(self.judge(MORE, rests, MORE_LINE, END), "only for what it rests on")

    def test_something_else_fails(self):
        other = "./proofs/calls/Answers.antt:3:9: error: `returns`: no\n"
        self.refused(self.judge(MORE, MORE_FAILS, other, MORE_LINE, "fn c::calls: not proved\n", END), "calls fails too")
        self.refused(self.judge(MORE, MORE_FAILS, MORE_LINE, "fn c::calls: no proof: expected answers in ./proofs/calls/Answers.antt; `search` did not prove `returns`\n", END), "calls fails too")
        self.refused(self.judge(MORE, MORE_FAILS, MORE_LINE, "fn c::calls: could not tell\n", END), "calls is could not tell")

    def test_a_law_that_is_not_named(self):
        self.refused(self.judge(RULE, LAWS_FAIL, "./proofs/Laws.antt:11:9: error: `double_less`: no\n", TWICE_LINE, END), "Laws double_less fails too")

    def test_a_law_that_does_not_fail(self):
        self.refused(self.judge(RULE, LAWS_FAIL.split("\n", 1)[0] + "\n", TWICE_LINE, END), "Laws double_more is not refused")

    def test_a_file_that_was_not_tried(self):
        root = os.path.join(self.folder.name, "root")
        for path, text in (("src/lib.rt", SOURCE), ("must-fail/1.edit", MORE)):
            edits.write(os.path.join(root, "crates", "c", path), text)
        (crate, label, path), = edits.edit_files(root, [])
        target = os.path.join(root, "target")
        found, faults = edits.judge_file(root, target, crate, label, path)
        self.assertEqual([edit.name for edit in found], ["more_by_two"])
        self.refused(faults, "was not tried")
        self.assertEqual(edits.judge_file(root, None, crate, label, path)[1], [])
        edits.write(edits.log_of(target, "c", "1"), MORE_FAILS + MORE_LINE + END)
        self.assertEqual(edits.judge_file(root, target, crate, label, path)[1], [])
        self.refused(edits.judge_apart(root, target, "c", found), "was not tried")
        edits.write(edits.log_of(target, "c", "more_by_two"), MORE_FAILS + MORE_LINE + END)
        self.assertEqual(edits.judge_apart(root, target, "c", found), [])
        said = io.StringIO()
        with contextlib.redirect_stderr(said), contextlib.redirect_stdout(said):
            self.assertEqual(edits.judge_all(root, None, []), 0)
            os.remove(path)
            self.assertEqual(edits.judge_all(root, None, []), 1)
        self.assertIn("there is no edit file", said.getvalue())

    # how logs are made

    def test_the_texts_of_an_edited_crate(self):
        twice = SMALL + "\n" + TWICE + "old:     let m = 0;\nnew:     let m = 1;\n"
        were = edits.apply(edits.edits_of(twice), self.folder.name)
        self.assertEqual(were, {os.path.join(self.folder.name, "src/lib.rt"): SOURCE, os.path.join(self.folder.name, "proofs/small/Answers.antt"): SMALL_ANSWERS})
        self.assertIn("let m = 1;", edits.read(os.path.join(self.folder.name, "src/lib.rt")))
        self.assertNotIn("lt9", edits.read(os.path.join(self.folder.name, "proofs/small/Answers.antt")))
        with self.assertRaises(edits.Bad):
            edits.apply(edits.edits_of(TWICE), self.folder.name)

    def test_a_copy_of_some_crates(self):
        root, room = os.path.join(self.folder.name, "root"), os.path.join(self.folder.name, "room")
        edits.write(os.path.join(root, "crates.txt"), "# NAME: uses\na:\nb staticlib: a\nbc: a b\n")
        for path in ("a/src/lib.rt", "a/out/rlib/a.rlib/format", "a/out/log", "b/src/lib.rt", "b/must-fail/1.edit", "bc/src/lib.rt"):
            edits.write(os.path.join(root, "crates", path), path)
        edits.copy_crates(root, room, {"a", "b"}, True)
        self.assertEqual(edits.read(os.path.join(room, "crates.txt")), "a:\nb staticlib: a\n")
        found = sorted(os.path.relpath(os.path.join(top, name), room) for top, _, names in os.walk(room) for name in names)
        self.assertEqual(found, ["crates.txt", "crates/a/out/rlib/a.rlib/format", "crates/a/src/lib.rt", "crates/b/src/lib.rt"])

    def test_logs_are_kept(self):
        with unittest.mock.patch.dict(os.environ, {"DTA_EDITS": os.path.join(self.folder.name, "kept")}):
            self.assertFalse(os.path.exists(edits.kept_at("ab")))
            edits.keep("ab", MORE_FAILS)
            self.assertEqual(edits.read(edits.kept_at("ab")), MORE_FAILS)
            self.assertEqual(os.listdir(os.path.dirname(edits.kept_at("ab"))), ["ab.log"])
        with unittest.mock.patch.dict(os.environ, {"DTA_EDITS": "/dev/null/kept"}):
            edits.keep("ab", MORE_FAILS)

    def test_a_method_of_a_type_without_a_capital(self):
        source = "impl Told for u8 {\n    fn own(self) -> u8 {\n        self\n    }\n}\n"
        self.assertEqual(edits.name_of(source, edits.function_at(source, source.index("        self"))), "U8Told/own")

    def test_the_crates_below(self):
        edits.write(os.path.join(self.folder.name, "crates.txt"), "# NAME: uses\na:\nb: a io\nc staticlib: b\nd: a\n")
        self.assertEqual(edits.below(self.folder.name), {"a": set(), "b": {"a"}, "c": {"a", "b"}, "d": {"a"}})

    # what must be refused: edit files

    def test_two_edits_of_one_function(self):
        again = TWICE.replace("twice_nothing", "twice_more").replace("let m = n;", "n + m").replace("let m = 0;", "n + n + m")
        self.refused(self.form(TWICE + "\n" + again), "both change twice")

    def test_another_function_is_named(self):
        self.refused(self.form(MORE.replace("refused: more", "refused: calls")), "is to be refused at calls")

    def test_a_need_that_is_no_promise(self):
        for need in ("number-requires", "overflow_add-result", "loop-k-smaller", "bounds-f", "number-returns"):
            self.refused(self.form(MORE.replace("returns", need)), "not about what more promises")
        for need in ("returns-in-4", "returns-then-n-eq0", "returns-in_default-2", "loop-init", "loop-preserved", "loop-k-init", "loop-k-preserved", "loop-k-preserved-then-a-b-2"):
            self.assertEqual(self.form(MORE.replace("returns", need)), [])

    def test_a_lemma_of_the_proof_itself(self):
        self.assertEqual(self.form(SMALL.replace("refused: small returns-then-n-lt8", "refused: small at_least")), [])
        self.refused(self.form(SMALL.replace("refused: small returns-then-n-lt8", "refused: small at_most")), "not about what small promises")

    def test_two_edits_with_one_law(self):
        again = RULE.replace("rule_less", "rule_more").replace("2 * n", "3 * n", 1).replace("new: double n = 3 * n", "new: double n = 4 * n")
        self.refused(self.form(RULE + "\n" + again.replace("# also: Laws double_more, twice returns\n", "")), "both name Laws double_is")

    def test_a_text_that_is_not_there(self):
        self.refused(self.form(RULE.replace("2 * n", "5 * n")), "stands 0 times")

    def test_an_edit_of_a_contract_or_a_proof(self):
        self.refused(self.form(MORE.replace("    n + 1\n", "result ≡ n + 1\n").replace("    n + 2", "result ≡ n + 2")), "changes a contract")
        self.refused(self.form(MORE.replace("    n + 1\n", "// One more.\n")), "changes a contract")
        self.refused(self.form(MORE + "file: proofs/Laws.antt\nold: look 1\nnew: look 2\n"), "changes a contract, a law")
        self.refused(self.form(MORE + SMALL[SMALL.index("file: proofs") :]), "whose body it leaves")
        self.refused(self.form(RULE + SMALL[SMALL.index("file: proofs") :]), "whose body it leaves")
        self.assertEqual(edits.changed_by(edits.edits_of(MORE)[0], self.folder.name), {"more"})
        self.assertEqual(edits.changed_by(edits.edits_of(TWICE)[0], self.folder.name), {"twice"})

    def test_an_answer_that_changes_by_more_than_names(self):
        for old, new in (("new: returns-then-n-lt8 c = below", "new: returns-then-n-lt8 c = above"), ("c.if-n-lt8.true", "c.if-n-lt8.false"), ("c.if-n-lt8.true", "c.true"), ("c.if-n-lt8.true", "c.when-n-lt8.true")):
            self.assertIn(old, SMALL)
            self.refused(self.form(SMALL.replace(old, new)), "more of it than the names")
        for old, new, same in (("c.more.ensures", "c.more-m.ensures", True), ("c.more-m.ensures", "c.more-then-n-lt9.ensures", True), ("c.more.ensures", "c.less.ensures", False), ("c.args.n", "c.args.m", False), ("c.args.n", "c.n", False)):
            self.assertEqual(edits.renames(("", old, new)), same)

    def test_an_added_function(self):
        self.assertEqual(edits.changed_by(edits.edits_of(ADDED)[0], self.folder.name), {"more"})
        for old, new in (("    few(n) + 1", "    n + 1 + 1"), ("few(n", "twice(n"), ("fn few", "let few"), ("old: // One more.", "old: fn twice(n: u8) -> u8"), ("old: // One more.", "old: // One"), (" { if n < 9 { n } else { 0 } }", ""), (" ensures { result ≡ few_of n }", "")):
            self.assertIn(old, ADDED)
            self.refused(self.form(ADDED.replace(old, new)), "changes a contract")
        # other lines between functions
        self.refused(self.form(ADDED.replace("new: ghost use c.specs.Path.{◌≡◌}; ghost use c.specs.Few.{few_of};", "new: ghost use c.specs.Few.{◌≡◌, few_of};")), "changes a contract")
        self.refused(self.form(ADDED.replace("; ghost use c.specs.Few.{few_of};", "; use few::Few;")), "changes a contract")
        self.refused(self.form(MORE + ADDED[ADDED.index("old: ghost") : ADDED.index("old: //")]), "changes a contract")

    def test_files_that_are_no_edits(self):
        for text in ("", "# a comment\n", MORE.replace("# refused: more returns: `2` (expected)\n", ""), MORE.replace("# more_by_two: one is added\n", ""),
                     MORE.split("old:")[0], MORE.replace("file: src/lib.rt\n", ""), MORE.replace("refused: more returns:", "refused: more:"), MORE + "else\n"):
            with self.assertRaises(edits.Bad, msg=text):
                edits.edits_of(text)


if __name__ == "__main__":
    unittest.main(argv=["edits_test.py", "--quiet"])
