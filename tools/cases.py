#!/usr/bin/env python3
"""The lines of .dta files, computed by the definitions of the crate format.

  tools/cases.py                      write the crate cases from crates/cases/selection.txt
  tools/cases.py --check              exit 1 if a file of the crate is not what would be written
  tools/cases.py --all [--max BYTES]  compute every case up to BYTES (default 3000) that is not selected,
                                      and compare; exit 1 if one differs
  tools/cases.py --line FILE..        print the line that the definitions compute for each file

A line is `edition MSF|LSF K N length`, or `refused NUMBER`.
Cases are the files of tests/cases and tests/samples, and the short files that crates/cases/short.tsv makes of them.
"""
import argparse
import fcntl
import hashlib
import os
import re
import subprocess
import sys
import tempfile

# ---- The names of the crate format that are used here. Where one of them changes there, change it here and nowhere else.

# the definitions that a computation unfolds, by the file of crates/format/specs that has them
UNFOLDED = {
    "Grammar": "tag between",
    "Header": "old_stamp old_header counted new_facts new_header",
    "Variables": "file_map type_code types name names sort_list fields",
    "Expansion": "expansion_head expansion_body expansion expansions",
    "Data": "observations linked long_head long_record strls",
    "Labels": "table_head table_body table block_head block blocks",
    "Dta": "from_strls from_data from_expansions from_var_labels from_set_names from_formats from_sort_list from_names from_types from_map"
    " sections part_sizes file_to verdict contents layout_of",
}
# the names that are used and not unfolded, and among them the type of a layout
USED = {"Dta": "Layout"}
LAYOUT = "Layout"
# the refusal number of the file f, 0 if it is accepted, and the file's layout
VERDICT = "verdict f"
LAYOUT_OF = "layout_of f"
# edition, byte order, K, N and length of a layout l
FACTS = ("l.release", "l.order", "l.variables", "l.rows", "(get_or l.places 13 0)")
# the byte orders as the layout has them
ORDERS = {"MSF": 1, "LSF": 2}

# ---- The folders, and how the cases are set out.

ROOT = os.path.dirname(os.path.dirname(os.path.abspath(__file__)))
CRATE = os.path.join(ROOT, "crates", "cases")
SELECTION = os.path.join(CRATE, "selection.txt")
SHORT = os.path.join(CRATE, "short.tsv")
FOLDERS = ("tests/cases", "tests/samples")
PER_MODULE = 25  # cases in a module
PER_FACT = 1500  # bytes of the cases of one fact, unless it has one case only
ROW = 32  # bytes in a row of a module's text
BASE = 2**64  # above each number of a line

PARTS = ("src", "specs", "proofs")
SPECS_LIB = "pub mod Line\n"


class Failure(Exception):
    """What went wrong, and the exit status."""

    def __init__(self, text, status=2):
        super().__init__(text)
        self.status = status


def named():
    """The names that are used of crates/format/specs, by their files."""
    names = {}
    for table in (USED, UNFOLDED):
        for module, words in table.items():
            names.setdefault(module, []).extend(words.split())
    return names


def line_spec():
    """specs/Line.antt: the line of a file, from the definitions of format."""
    uses = "".join("use Rattle.format.specs.%s.{%s}\n" % (m, ", ".join(names)) for m, names in named().items())
    return """-- The line that the definitions of format compute for a file. Written by tools/cases.py.
use Rattle.std.specs.Prelude.{{◌≡◌, ℕ, zero, suc, ◌-◌, ◌/◌, ◌%◌, List, [], ◌∷◌, cond, get_or, eqb}}
{uses}
-- what is said of a file: its refusal number; or edition, byte order, K, N and length
pub data Line : Type 0 where
  refused : ℕ → Line
  accepted : ℕ → ℕ → ℕ → ℕ → ℕ → Line

-- the byte orders: most or least significant byte first
abbrev pub MSF : ℕ
MSF = {MSF}

abbrev pub LSF : ℕ
LSF = {LSF}

-- the line of an accepted file with the layout
abbrev pub line_by : {layout} → Line
line_by l = accepted {facts}

-- the line of a file
unfoldable pub line : List ℕ → Line
unfolding {unfolded}
line f = let a = line_by ({layout_of}) in let r = refused ({verdict}) in cond (eqb ({verdict}) 0) a r

-- the w bytes of a number, most significant first, and then l
unfoldable pub digits : ℕ → ℕ → List ℕ → List ℕ
digits zero x l = l
digits (suc w) x l = digits w (x / 256) (x % 256 ∷ l)

-- n bytes: a number for each {row}, and one for the rest
unfoldable pub bytes : ℕ → List ℕ → List ℕ
unfolding digits
bytes n [] = []
bytes n (x ∷ []) = digits n x []
bytes n (x ∷ y ∷ l) = digits {row} x (bytes (n - {row}) (y ∷ l))

-- a case: a file's bytes, and its line
abbrev pub Case : Type 0
Case = List ℕ × Line

-- the lines that are computed, and those that are stated
unfoldable pub computed : List Case → List Line
computed [] = []
computed (c ∷ t) = line c.0 ∷ computed t

unfoldable pub stated : List Case → List Line
stated [] = []
stated (c ∷ t) = c.1 ∷ stated t

-- they are the same
unfoldable pub Agree : List Case → Type 0
unfolding line bytes computed stated
Agree t = computed t ≡ stated t
""".format(
        uses=uses,
        layout=LAYOUT,
        layout_of=LAYOUT_OF,
        verdict=VERDICT,
        facts=" ".join(FACTS),
        unfolded=" ".join(UNFOLDED.values()),
        row=ROW,
        **ORDERS,
    )


# ---- The cases.


class Case:
    """A name, a file's bytes and its line."""

    def __init__(self, name, data, line):
        self.name, self.data, self.line = name, data, line

    @property
    def ident(self):
        return "c_" + re.sub("[^A-Za-z0-9]+", "_", self.name).strip("_")

    @property
    def term(self):
        """The line as a term of antt."""
        return self.line if self.line.startswith("refused ") else "accepted " + self.line


def read_text(path):
    with open(path, encoding="utf-8") as f:
        return f.read()


def rows_of(path):
    """The fields of each line of a table; '#' starts a comment line."""
    for number, text in enumerate(read_text(path).splitlines(), 1):
        if text.strip() and not text.startswith("#"):
            yield number, text.split("\t")


def is_line(text):
    return re.fullmatch(r"refused \d+|\d+ (MSF|LSF) \d+ \d+ \d+", text) is not None


def edited(data, edit, where):
    """The bytes after an edit: +HEX adds bytes at the end, AT=HEX puts bytes at a place."""
    m = re.fullmatch(r"(?:\+|(\d+)=)((?:[0-9a-f]{2})+)", edit)
    if m is None:
        raise Failure("%s: '%s' is no edit (+HEX or AT=HEX)" % (where, edit))
    new = bytes.fromhex(m.group(2))
    if m.group(1) is None:
        return data + new
    at = int(m.group(1))
    if at + len(new) > len(data):
        raise Failure("%s: the edit lies outside the file" % where)
    return data[:at] + new + data[at + len(new) :]


def all_cases():
    """Every case by its name."""
    cases = {}

    def add(case, where):
        if not is_line(case.line):
            raise Failure("%s: '%s' is no line" % (where, case.line))
        if any(case.ident == c.ident for c in cases.values()):
            raise Failure("%s: the name %s is taken" % (where, case.name))
        cases[case.name] = case

    for folder in FOLDERS:
        table = os.path.join(ROOT, folder, "expected.tsv")
        for number, fields in rows_of(table):
            where = "%s/expected.tsv:%d" % (folder, number)
            if len(fields) != 2:
                raise Failure("%s: expected NAME, a tab and LINE" % where)
            name = fields[0].removesuffix(".dta")
            with open(os.path.join(ROOT, folder, name + ".dta"), "rb") as f:
                add(Case(name, f.read(), fields[1]), where)
    if os.path.exists(SHORT):
        for number, fields in rows_of(SHORT):
            where = "crates/cases/short.tsv:%d" % number
            if len(fields) != 4 or fields[1] not in cases:
                raise Failure("%s: expected NAME, CASE, EDIT and LINE, with tabs between them" % where)
            name, source, edit, line = fields
            add(Case(name, edited(cases[source].data, edit, where), line), where)
    return cases


def selected(cases):
    """The cases that the crate states, in the order of the selection."""
    names = [t.strip() for t in read_text(SELECTION).splitlines() if t.strip() and not t.startswith("#")]
    for name in names:
        if name not in cases:
            raise Failure("crates/cases/selection.txt: there is no case %s" % name)
        if names.count(name) > 1:
            raise Failure("crates/cases/selection.txt: %s is there twice" % name)
    return [cases[n] for n in names]


# ---- The text of a crate that states cases.


def bytes_text(name, data):
    """The definition of a list of bytes, in rows."""
    if not data:
        return "%s : List ℕ\n%s = []\n" % (name, name)
    rows = [data[i : i + ROW] for i in range(0, len(data), ROW)]
    numbers = ["0x" + "_".join(r[i : i + 4].hex() for i in range(0, len(r), 4)) for r in rows]
    return "%s : List ℕ\n%s =\n    bytes %d (\n    %s\n    ∷ []\n    )\n" % (name, name, len(data), "\n    ∷ ".join(numbers))


def grouped(cases, together):
    """Lists of cases, one for each fact: together up to PER_FACT bytes, or each alone."""
    groups = []
    for case in cases:
        if together and groups and sum(len(c.data) for c in groups[-1]) + len(case.data) <= PER_FACT:
            groups[-1].append(case)
        else:
            groups.append([case])
    return groups


def words_of(cases):
    """The words of the lines of cases."""
    said = {word for case in cases for word in case.term.split()}
    return [word for word in ("refused", "accepted", *ORDERS) if word in said]


def module_text(crate, cases, first, together):
    """A module that states the cases. The first of them has the number `first`."""
    parts = [
        """-- Cases {first} to {last}, by computation. Written by tools/cases.py.
use mathlib.Core.Path.{{refl}}
use Prim.Native.Nat.{{ℕ}}
use mathlib.Core.List.{{List, [], ◌∷◌}}
use Rattle.{crate}.specs.Line.{{{used}, bytes, Case, Agree}}
""".format(first=first, last=first + len(cases) - 1, crate=crate, used=", ".join(words_of(cases)))
    ]
    number = first
    for group in grouped(cases, together):
        names = [c.ident for c in group]
        parts += [bytes_text(c.ident, c.data) for c in group]
        table = "\n    ∷ ".join("(%s, %s)" % (c.ident, c.term) for c in group)
        parts.append("table_%d : List Case\ntable_%d =\n    %s\n    ∷ []\n" % (number, number, table))
        parts.append(
            "agree_%d : Agree table_%d\nunfolding Agree table_%d %s\nagree_%d = refl\n" % (number, number, number, " ".join(names), number)
        )
        number += len(group)
    return "\n".join(parts)


def source_text(about, count):
    """src/lib.rt: a crate has at least one function."""
    return "#![tactic(auto)]\n\n// %s\npub fn count() -> u64 {\n    %d\n}\n" % (about, count)


def crate_text(crate, cases, together=True):
    """The files of a crate that states the cases, by their paths in it."""
    files = {
        "src/lib.rt": source_text("The number of cases that the proofs state.", len(cases)),
        "specs/Lib.antt": SPECS_LIB,
        "specs/Line.antt": line_spec(),
    }
    modules = []
    for i in range(0, len(cases), PER_MODULE):
        modules.append("Cases%02d" % (len(modules) + 1))
        files["proofs/%s.antt" % modules[-1]] = module_text(crate, cases[i : i + PER_MODULE], i + 1, together)
    files["proofs/Lib.antt"] = "".join("pub mod %s\n" % m for m in modules)
    return files


def write_files(folder, files):
    for path, text in files.items():
        path = os.path.join(folder, path)
        if os.path.exists(path) and read_text(path) == text:
            continue
        os.makedirs(os.path.dirname(path), exist_ok=True)
        with open(path, "w", encoding="utf-8") as f:
            f.write(text)


def replace_files(folder, files):
    """Writes the files of a crate, and removes any other from its src, specs and proofs."""
    for stale in files_in(folder, PARTS) - set(files):
        os.remove(os.path.join(folder, stale))
    write_files(folder, files)


def files_in(folder, parts):
    """The files below some parts of a folder, by their paths in it."""
    return {
        os.path.relpath(os.path.join(where, name), folder)
        for part in parts
        for where, _, names in os.walk(os.path.join(folder, part))
        for name in names
    }


# ---- Repositories of their own, for cases that are not selected and for other files.


def dependencies():
    """The crates that format depends on and itself, each with its line of crates.txt."""
    lines = {}
    path = os.path.join(ROOT, "crates.txt")
    for text in read_text(path).splitlines() if os.path.exists(path) else []:
        name, colon, needs = text.split("#")[0].partition(":")
        if colon:
            lines[name.split()[0]] = needs.split()
    found, todo = {}, ["format"]
    while todo:
        name = todo.pop()
        if name in lines and name not in found:
            found[name] = lines[name]
            todo += lines[name]
    return found or {"format": []}


def write_definitions(room):
    """A repository with the definitions of format alone: its specs, and no functions and proofs."""
    needed = dependencies()
    for name in needed:
        source = os.path.join(ROOT, "crates", name, "specs")
        if not os.path.isdir(source):
            raise Failure("there is no crates/%s/specs" % name)
        crate = os.path.dirname(source)
        files = {p: read_text(os.path.join(crate, p)) for p in files_in(crate, ["specs"]) if p.endswith(".antt")}
        files["src/lib.rt"] = source_text("A crate has a function; the definitions are in specs.", 0)
        replace_files(os.path.join(room, "crates", name), files)
    return "".join("%s: %s\n" % (n, " ".join(d)) for n, d in needed.items())


def spec_text(module):
    try:
        return read_text(os.path.join(ROOT, "crates/format/specs", module + ".antt"))
    except FileNotFoundError:
        raise Failure("there is no crates/format/specs/%s.antt: change the names at the top of tools/cases.py" % module)


def known_names():
    """Fails if a name that is used here is not in crates/format."""
    for module, names in named().items():
        text = spec_text(module)
        for name in names:
            if not re.search(r"^ *(?:unfoldable |abbrev )?pub (?:record |data )?%s[ \n]" % re.escape(name), text, re.M):
                raise Failure("crates/format/specs/%s.antt has no %s: change the names at the top of tools/cases.py" % (module, name))


def left_out():
    """The definitions of crates/format that do not unfold by themselves and are not named here."""
    found = []
    for module in re.findall(r"^pub mod (\S+)", spec_text("Lib"), re.M):
        names = re.findall(r"^ *unfoldable pub (\S+)", spec_text(module), re.M)
        found += ["%s.%s" % (module, n) for n in names if n not in named().get(module, [])]
    return found


def rt(room, *words):
    """What rt says in a repository."""
    try:
        run = subprocess.run(["rt", *words], cwd=room, stdout=subprocess.PIPE, stderr=subprocess.STDOUT, encoding="utf-8")
    except FileNotFoundError:
        raise Failure("the command rt is not on the PATH")
    return run.stdout


# ---- The lines that the definitions compute.

# In `answer f refl ?` antt has to find n from `code (line f) + 1 ≡ suc n`. As `+` computes at numbers only, n becomes the
# computed number, and the goal of the hole, `Is n`, shows it.
QUERY = """use mathlib.Core.Path.{◌≡◌, refl}
use Prim.Native.Nat.{ℕ, suc, ◌+◌, ◌*◌}
use mathlib.Core.List.{List, [], ◌∷◌}
use Rattle.line.specs.Line.{Line, refused, accepted, line, bytes}

-- a line as one number: the refusal number, then the five numbers of an accepted file
code : Line → ℕ
code (refused n) = n
code (accepted e o k n l) = ((((l * BASE + n) * BASE + k) * BASE + o) * BASE + e) * BASE

Is : ℕ → Type 0
Is n = n ≡ n

answer : (f : List ℕ) {n : ℕ} → code (line f) + 1 ≡ suc n → Is n → ℕ
answer f p q = 0
""".replace("BASE", str(BASE))


def line_of(code):
    """The line that a number stands for."""
    numbers = []
    for _ in range(6):
        code, n = divmod(code, BASE)
        numbers.append(n)
    refusal, edition, order, k, n, length = numbers
    if refusal:
        return "refused %d" % refusal
    word = {number: word for word, number in ORDERS.items()}.get(order, str(order))
    return "%d %s %d %d %d" % (edition, word, k, n, length)


def computed_lines(room, contents):
    """For each of a list of byte strings its line, or None and the reason why there is none."""
    known_names()
    listed = write_definitions(room)
    text = QUERY
    for i, data in enumerate(contents):
        text += "\n" + bytes_text("f_%d" % i, data)
        text += "\nq_%d : ℕ\nunfolding code line bytes f_%d\nq_%d = answer f_%d refl ?\n" % (i, i, i, i)
    write_files(room, {"crates.txt": listed + "line: format\n"})
    files = {
        "src/lib.rt": source_text("A crate has a function; the question is in proofs.", 0),
        "specs/Lib.antt": SPECS_LIB,
        "specs/Line.antt": line_spec(),
        "proofs/Lib.antt": "pub mod Query\n",
        "proofs/Query.antt": text,
    }
    replace_files(os.path.join(room, "crates", "line"), files)
    said = rt(os.path.join(room, "crates", "line"), "check", "--allow-holes")
    if not re.search(r"^holes=\d+", said, re.M):
        raise Failure("the definitions of crates/format do not check; rt says:\n" + shortened(said))
    goals = dict(re.findall(r"goal \? in `q_(\d+)`\n(?:    .*\n)*? *⊢ Is (\d+)$", said, re.M))
    lines = []
    for i in range(len(contents)):
        if str(i) in goals:
            lines.append((line_of(int(goals[str(i)])), ""))
        elif re.search(r"error: `q_%d`: .*(step limit|memory|deep recursion)" % i, said):
            lines.append((None, "too long: antt reaches its limit of steps or memory before the line is computed"))
        else:
            hint = "; UNFOLDED in tools/cases.py leaves out: " + " ".join(left_out())
            raise Failure("the definitions do not compute%s; rt says:\n%s" % (hint if left_out() else "", shortened(said)))
    return lines


def shortened(said, lines=20, width=300):
    """The errors of what rt says, or its last lines."""
    texts = [t for t in said.splitlines() if "error" in t][:lines] or said.splitlines()[-lines:]
    return "\n".join("  " + t[:width] for t in texts)


# ---- The commands.


def write_crate():
    known_names()
    cases = selected(all_cases())
    files = crate_text("cases", cases)
    replace_files(CRATE, files)
    print("%d cases in %d modules" % (len(cases), files["proofs/Lib.antt"].count("\n")))


def check_crate():
    files = crate_text("cases", selected(all_cases()))
    there = files_in(CRATE, PARTS)
    wrong = sorted(there ^ set(files))
    wrong += sorted(p for p in there & set(files) if read_text(os.path.join(CRATE, p)) != files[p])
    for path in wrong:
        print("crates/cases/%s is not what tools/cases.py writes" % path)
    if wrong:
        raise Failure("run tools/cases.py to write the crate again", 1)


def check_all(bound):
    known_names()
    cases = all_cases()
    chosen = {c.name for c in selected(cases)}
    cases = [c for c in cases.values() if c.name not in chosen and len(c.data) <= bound]
    with tempfile.TemporaryDirectory() as room:
        listed = write_definitions(room)
        write_files(room, {"crates.txt": listed + "cases: format\n"})
        write_files(os.path.join(room, "crates", "cases"), crate_text("cases", cases, together=False))
        said = rt(os.path.join(room, "crates", "cases"), "check")
        facts = {"agree_%d" % n: case for n, case in enumerate(cases, 1)}
        refused = list(dict.fromkeys(re.findall(r"error: `([^`]+)`", said)))
        if not set(refused) <= set(facts) or not (refused or re.search(r"^logic=proved", said, re.M)):
            raise Failure("the cases do not check; rt says:\n" + shortened(said))
        wrong = [facts[name] for name in refused]
        found = computed_lines(os.path.join(room, "line"), [c.data for c in wrong]) if wrong else []
    for case, (line, reason) in zip(wrong, found):
        print("%s: expected '%s', computed '%s'" % (case.name, case.line, line or reason))
    print("%d of %d cases agree" % (len(cases) - len(wrong), len(cases)))
    return 1 if wrong else 0


def print_lines(paths):
    contents = []
    for path in paths:
        with open(path, "rb") as f:
            contents.append(f.read())
    # what rt proves of the definitions stays, so that it is proved once; not in the checkout, where `rt ci` refuses files that no crate has
    room = os.path.join(os.environ.get("XDG_CACHE_HOME") or os.path.expanduser("~/.cache"), "dta-lines", hashlib.sha256(ROOT.encode()).hexdigest()[:16])
    os.makedirs(room, exist_ok=True)
    with open(os.path.join(room, "lock"), "w") as lock:
        fcntl.flock(lock, fcntl.LOCK_EX)
        lines = computed_lines(room, contents)
    status = 0
    for path, (line, reason) in zip(paths, lines):
        if line is None:
            print("cases.py: %s: %s" % (path, reason), file=sys.stderr)
            status = 1
        else:
            print(line, flush=True)
    return status


def main():
    parser = argparse.ArgumentParser(description=__doc__, formatter_class=argparse.RawDescriptionHelpFormatter)
    mode = parser.add_mutually_exclusive_group()
    mode.add_argument("--check", action="store_true", help="compare the files of the crate with what would be written")
    mode.add_argument("--all", action="store_true", help="compute the cases that are not selected")
    mode.add_argument("--line", nargs="+", metavar="FILE", help="print the line of each file")
    parser.add_argument("--max", type=int, metavar="BYTES", help="with --all: the longest file (default 3000)")
    words = parser.parse_args()
    if words.max is not None and not words.all:
        parser.error("--max goes with --all")
    try:
        if words.check:
            return check_crate()
        if words.all:
            return check_all(3000 if words.max is None else words.max)
        if words.line:
            return print_lines(words.line)
        return write_crate()
    except Failure as e:
        print("cases.py: %s" % e, file=sys.stderr)
        return e.status
    except OSError as e:
        print("cases.py: %s: %s" % (e.filename, e.strerror), file=sys.stderr)
        return 2


if __name__ == "__main__":
    sys.exit(main())
