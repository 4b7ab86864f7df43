#!/usr/bin/env python3
"""Judges the edits that must be refused: whether each wrong thing is refused where, and because of what, its edit file says.

    edits.py [--target DIR] [CRATE..]   check each edit file of these crates, or of all, and judge what the prover says; logs are in DIR/must-fail (default: target)
    edits.py --names [CRATE..]          only read the edit files, and print each edit
    edits.py --apart CRATE..            try each edit alone: whether it is refused as it is beside the others

An edit file, crates/NAME/must-fail/*.edit, has one or more edits, since `rt` takes any number of replacements in one check and the prover names each
function that isn't proved. `rt` itself says only that the whole was refused. An edit is

    # NAME: what is right, which the edit breaks
    # refused: UNIT NEED: WORDS
    # also: UNIT NEED, UNIT NEED
    file: src/lib.rt
    old: a text that stands once in that file
    new: the text in its place

with one or more `refused:` lines, any number of `also:` lines, and one or more replacements. UNIT is a function; or a file of laws, by its path below proofs/; or
a file of definitions, as specs/NAME. NEED is the goal or the law that fails (`returns-in-4`, `loop-i-preserved`, a law's name). WORDS stand in what the prover says of
it, and are part of the fact that no longer holds; they stand in what it says of the function's goals before that one, too. `also:` has what else breaks where a definition is changed.

An answer is named after its place in the code (`returns-then-x-lt9`), and so are the facts that it cites (`c.if-x-lt9.true`). Where an edit changes a condition, it renames these
in the function's Answers.antt or Invariants.antt, as a name that is gone would say nothing about a fact. An edit may add a function that is proved and promises something else, for the
body to call: its text in one line, in place of a comment between functions. Definitions that its contract names are added to a line of `ghost use`.

Refused by this program:
- an edit of a contract, which would only show that the proof doesn't prove something else, or of a proof but for such names;
- a file in which two edits change one function or name one law: what fails could be the other's;
- an edit that changes the body of a function and names another one as refused, or a need that is not about what the function promises (see PROMISES);
- an edit whose function or law does not fail, or fails first elsewhere, or for another reason, or for the form of its proof alone (see FORM);
- anything else that fails, but by depending on what failed.

A log is made by `rt check` in a copy of the crate and of those below it, which begins with what earlier checks on this machine kept; after `rt ci` in a clean clone, over the
libraries that this left. It is kept, under a sum of all that it was made of, in
$DTA_EDITS or ~/.cache/dta-edits, so a later run in any checkout here makes only those of what changed.
"""
import argparse
import concurrent.futures
import functools
import hashlib
import os
import re
import shutil
import subprocess
import sys
import tempfile

# Errors of a proof whose names or form no longer fit the code: nothing is said about a fact.
FORM = re.compile(r"(?:`[^`]*`: )?(?:module `[^`]*` has no `|record `[^`]*` has no field `|`[^`]*` is not in scope|is not admitted)")
# Errors of what rests on something that was refused.
DEPENDS = re.compile(r"declarations? that depends? on `[^`]*`, .*(?:was|were) not checked|was not admitted \(.*\), so this cannot be checked")
# The goals about what a function promises: its answers, and what its loops keep. Others are about a callee's `requires`, an index or a sum.
PROMISES = re.compile(r"(returns([-_].*)?|loop(-.*)?-(init|preserved)(-.*)?)$")

ERROR = re.compile(r"(?:\./)?(?P<path>(?:src|specs|proofs)/.*?):(?P<line>\d+):\d+: error: (?:`(?P<need>[^`]+)`: )?(?P<text>.*)")
UNSOLVED = re.compile(r"(?:\./)?(?P<path>(?:src|specs|proofs)/.*?):(?P<line>\d+):\d+: `(?P<need>[^`]+)` (?P<text>is not admitted.*)")
# An open goal of a function: where it is, what it must prove.
OPEN = re.compile(r"note: `(?P<need>[^`]+)` of proofs/(?P<unit>.*?)/Answers\.antt (?P<text>must prove: .*|may be false: .*)")
FUNCTION = re.compile(r"fn (?P<crate>\w+)::(?P<name>[\w:]+): (?P<what>proved|not proved|no proof|could not tell)(?P<rest>.*)")
SEARCHED = re.compile(r"`search` did not prove (`[^`]+`(?:(?:, | and )`[^`]+`)*)")
ITEM = re.compile(r"^(?: {4})?(?:pub )?(?:extern \"C\" )?fn (\w+)", re.M)
# The type, after the trait if there is one, whose functions an `impl` block has.
IMPL = re.compile(r"^impl(?:<[^{]*?>)? (?:(\w+)(?:<([^{]*?)>)? for )?(\w+)[^{;]*\{", re.M)
PROOF = re.compile(r"proofs/([\w+/]+)/(?:Answers|Invariants)\.antt$")
# A name that the prover makes of a place in the code: words of ours have no dash. A call alone has its callee's name, others with more.
PLACE = re.compile(r"[\w']+(?:-[\w']+)+")
CALL = re.compile(r"\bc\.([\w']+)(?:-[\w']+)*")
NAME = re.compile(r"# (\w+): \S")
REFUSED = re.compile(r"# refused: (\S+) (\S+): (.*\S)")
ALSO = re.compile(r"# also: (\S+ \S+(?:, \S+ \S+)*)$")
PARTS = ("src", "specs", "proofs")
# A check's verdict.
ENDED = re.compile(r"^logic=", re.M)
# What a check may take of the memory.
CHECK_MEMORY = 2_500_000_000


def key_of(unit, need):
    """What fails as one: a function, or a single law of a file of laws."""
    law = unit.startswith("specs/") or unit.split("/")[-1][0].isupper()
    return f"{unit} {need}" if law else unit


class Bad(Exception):
    """An edit file that is not in the form above."""


class Claim:
    """What an edit says will fail; without words in an `also:` line."""

    def __init__(self, unit, need, words=None):
        self.unit, self.need, self.words = unit, need, words
        self.key = key_of(unit, need)


class Edit:
    def __init__(self, name):
        self.name, self.claims, self.pairs = name, [], []


class Failure:
    """What the prover said of one declaration."""

    def __init__(self, unit, need, text):
        self.unit, self.need, self.text = unit, need, text
        self.key = key_of(unit, need)
        self.depends = bool(DEPENDS.search(text))


def edits_of(text):
    """The edits of an edit file."""
    edits, path, old = [], None, None
    for line in text.splitlines():
        refused, also, name = REFUSED.match(line), ALSO.match(line), NAME.match(line)
        if line.startswith(("# refused:", "# also:")):
            if not (refused or also) or not edits or edits[-1].pairs:
                raise Bad(f"not 'refused: UNIT NEED: WORDS' or 'also: UNIT NEED' after an edit's name: {line}")
            edits[-1].claims += [Claim(*refused.groups())] if refused else [Claim(*one.split()) for one in also.group(1).split(", ")]
        elif name:
            edits.append(Edit(name.group(1)))
            path = old = None
        elif line.startswith("file: "):
            path = line[6:]
        elif line.startswith("old: "):
            old = line[5:]
        elif line.startswith("new:"):
            if not edits or path is None or old is None:
                raise Bad("a replacement that has no name, file or old text before it")
            edits[-1].pairs.append((path, old, line[4:].removeprefix(" ")))
            old = None
        elif line.strip():
            raise Bad(f"a line that is none of an edit's: {line}")
    for edit in edits:
        if not edit.pairs or not any(claim.words for claim in edit.claims):
            raise Bad(f"{edit.name} has no 'refused:' line, or no replacement")
    if not edits:
        raise Bad("it has no edit")
    return edits


def function_at(source, at):
    """The function that stands at a place of a source file, by its head."""
    found = None
    for item in ITEM.finditer(source):
        if item.start() <= at:
            found = item
    return found


def name_of(source, item):
    """The name of a function by its head: of a method, after its type, and the trait that it is of."""
    if not item.group().startswith(" "):
        return item.group(1)
    block = [found for found in IMPL.finditer(source) if found.start() < item.start()][-1]
    kind = block.group(3)[0].upper() + block.group(3)[1:]
    return kind + (block.group(1) or "") + "".join(re.findall(r"\w+", block.group(2) or "")) + "/" + item.group(1)


def body_of(source, at):
    """The name of the function in whose body a place stands; none in a contract or between functions."""
    item = function_at(source, at)
    if not item:
        return None
    indent = "    " if item.group().startswith(" ") else ""
    body = source.find(f"\n{indent}{{\n", item.start())
    end = source.find(f"\n{indent}}}\n", item.start())
    head = source[item.start() : source.find("\n", item.start())]
    if head.endswith("{"):
        body = item.start() + len(head) - 1
    return name_of(source, item) if 0 <= body < at < end else None


def added_by(edit, pair, folder):
    """The function that a replacement adds in place of a comment; none if it adds none, or one that is there or that the edit doesn't call."""
    path, old, new = pair
    item = re.match(r"fn (\w+).* ensures \{ .* \} \{ .* \}$", new)
    if not (path.startswith("src/") and old.startswith("// ") and item):
        return None
    source, name = read(os.path.join(folder, path)), item.group(1)
    called = any(re.search(rf"\b{name}\(", other[2]) for other in edit.pairs if other != pair)
    return name if called and old in source.split("\n") and name not in ITEM.findall(source) else None


def imports(edit, pair, folder):
    """Whether a replacement only adds definitions to those that contracts can name, where the edit adds a function."""
    path, old, new = pair
    items = path.startswith("src/") and new.startswith(old) and re.fullmatch(r"ghost use [^;]*;( ghost use [^;]*;)+", new)
    return bool(items) and any(added_by(edit, other, folder) for other in edit.pairs)


def renames(pair):
    """Whether a replacement changes no more than names that the prover makes of places in the code."""
    _, old, new = pair
    return PLACE.sub("-", CALL.sub(r"c.\1", old)) == PLACE.sub("-", CALL.sub(r"c.\1", new))


def changed_by(edit, folder):
    """The functions whose bodies an edit changes, with none for a place outside any body; empty where it changes definitions."""
    names = set()
    for path, old, new in edit.pairs:
        if path.startswith("src/") and not added_by(edit, (path, old, new), folder) and not imports(edit, (path, old, new), folder):
            source = read(os.path.join(folder, path))
            # or a text that an earlier replacement of this edit put there
            at = source.find(old) if old in source else source.find(edit.pairs[0][1])
            names.add(body_of(source, at + len(old) - len(old.lstrip())))
    return names


def is_promise(claim, folder):
    """Whether a need is about what the function promises, or a lemma of its proof's own."""
    files = [os.path.join(folder, "proofs", claim.unit, name) for name in ("Answers.antt", "Invariants.antt")]
    laws = [law for path in files if os.path.exists(path) for law in re.findall(rf"^ *(?:pub )?{re.escape(claim.need)} : (.*)", read(path), re.M)]
    return bool(PROMISES.match(claim.need)) or any(not law.startswith("goal.") for law in laws)


def form_faults(edits, folder):
    """What is wrong with the edits of one file, before any log is read."""
    faults, seen, texts = [], {}, {}
    for edit in edits:
        changed = changed_by(edit, folder)
        proofs = {PROOF.match(path).group(1) for path, _, _ in edit.pairs if PROOF.match(path)}
        if None in changed or any(not path.startswith(("src/", "specs/")) and not PROOF.match(path) for path, _, _ in edit.pairs):
            faults.append(f"{edit.name} changes a contract, a law or what stands between functions: change the body of a function, or a definition")
            continue
        if not proofs <= changed or not all(renames(pair) for pair in edit.pairs if PROOF.match(pair[0])):
            faults.append(f"{edit.name} changes the proof of a function whose body it leaves, or more of it than the names of places in the code")
            continue
        for path, old, new in edit.pairs:
            text = texts.get(path) or read(os.path.join(folder, path))
            if text.count(old) != 1:
                faults.append(f"{edit.name} replaces a text that stands {text.count(old)} times in {path}: {old}")
            texts[path] = text.replace(old, new)
        for key in changed or {claim.key for claim in edit.claims}:
            if key in seen:
                faults.append(f"{seen[key]} and {edit.name} both {'change' if changed else 'name'} {key}")
            seen[key] = edit.name
        for claim in edit.claims if changed else []:
            if claim.unit not in changed:
                faults.append(f"{edit.name} changes {', '.join(sorted(changed))}, and is to be refused at {claim.unit}")
            elif not is_promise(claim, folder):
                faults.append(f"{edit.name} is to be refused at {claim.need}, which is not about what {claim.unit} promises")
    return faults


def unit_of(path, line, folder):
    """The unit that a place in a crate belongs to."""
    if path.startswith("src/"):
        lines = read(os.path.join(folder, path)).split("\n")
        before = "\n".join(lines[:line])
        item = function_at(before, len(before))
        return name_of(before, item) if item else path
    return re.sub(r"/(Answers|Invariants|Proof)$", "", path.removesuffix(".antt").removeprefix("proofs/"))


def read_log(log, folder):
    """A log's failures in order, and each function's line. `folder` is the crate, with the same lines."""
    failures, functions = [], {}
    lines, at = log.splitlines(), 0
    while at < len(lines):
        line = lines[at]
        head, goal, function = ERROR.match(line) or UNSOLVED.match(line), OPEN.match(line), FUNCTION.match(line)
        at += 1
        if function:
            functions[function["name"]] = (function["what"], function["rest"])
            unit = function["name"].replace("::", "/")
            searched = SEARCHED.search(function["rest"])
            failures += [Failure(unit, need, "`search` did not prove it") for need in re.findall(r"`([^`]+)`", searched.group(1))] if searched else []
        if head or goal:
            text = [(head or goal)["text"]]
            while at < len(lines) and lines[at].startswith("  ") and not lines[at].startswith("  names you can use"):
                text.append(lines[at].strip())
                at += 1
        if head:
            failures.append(Failure(unit_of(head["path"], int(head["line"]), folder), head["need"] or "", " ".join(text)))
        if goal:
            for failure in failures:
                if (failure.unit, failure.need) == (goal["unit"], goal["need"]):
                    failure.text += "; " + " ".join(text)
    return failures, functions


def claim_fault(claim, failures):
    """Why a claim is not met; none if it is."""
    found = [failure for failure in failures if failure.key == claim.key]
    if not found:
        return f"{claim.key} is not refused"
    first = found[0]
    said = f"{first.need}: {first.text[:300]}"
    if FORM.match(first.text):
        return f"{claim.key} is refused for its form alone: {said}"
    if first.depends:
        return f"{claim.key} is refused only for what it rests on: {said}"
    needs = [failure.need for failure in found]
    if claim.need not in needs:
        return f"{claim.key} is first refused elsewhere: {said}"
    # goals before it may cite the same fact, which then holds in none of them
    *before, last = found[: needs.index(claim.need) + 1]
    if any(not claim.words or claim.words not in failure.text for failure in before):
        return f"{claim.key} is first refused elsewhere: {said}"
    if claim.words and claim.words not in last.text:
        return f"{claim.key} is refused for another reason: {last.need}: {last.text[:300]}"
    unfit = [failure for failure in found if FORM.match(failure.text)]
    if unfit:
        return f"{claim.key} has a proof that doesn't fit the code: {unfit[0].need}: {unfit[0].text[:300]}"
    return None


def stray_faults(edits, failures, functions):
    """What fails, is not named, and does not depend on what failed."""
    named = {claim.key for edit in edits for claim in edit.claims}
    faults = [f"{failure.key} fails too, and no edit names it: {failure.need}: {failure.text[:300]}" for failure in failures if failure.key not in named and not failure.depends]
    failed = {failure.key for failure in failures}
    for name, (what, rest) in functions.items():
        key = name.replace("::", "/")
        if what != "proved" and key not in named and key not in failed and not re.search(r"it calls .*which (?:is|are) not proved", rest):
            faults.append(f"{name} is {what}, and no edit names it:{rest[:300]}")
    return faults


def judge(edits, log, folder):
    """What is wrong with a log of these edits."""
    if not re.search(r"^logic=not-proved", log, re.M):
        return ["the prover did not refuse it"]
    failures, functions = read_log(log, folder)
    faults = [f"{edit.name}: {fault}" for edit in edits for claim in edit.claims for fault in [claim_fault(claim, failures)] if fault]
    return faults + stray_faults(edits, failures, functions)


def read(path):
    with open(path, encoding="utf-8") as file:
        return file.read()


def edit_files(root, crates):
    """Crate, label and path of each edit file."""
    for crate in crates or sorted(os.listdir(os.path.join(root, "crates"))):
        folder = os.path.join(root, "crates", crate, "must-fail")
        for name in sorted(os.listdir(folder)) if os.path.isdir(folder) else []:
            if name.endswith(".edit"):
                yield crate, name.removesuffix(".edit"), os.path.join(folder, name)


def judge_file(root, target, crate, label, path):
    """A file's edits, and what is wrong with them or, where there is a folder of logs, with their log."""
    try:
        edits = edits_of(read(path))
    except Bad as bad:
        return [], [str(bad)]
    folder = os.path.join(root, "crates", crate)
    faults = form_faults(edits, folder)
    if target is None or faults:
        return edits, faults
    return edits, judge_log(edits, log_of(target, crate, label), folder)


def judge_log(edits, log, folder):
    """What is wrong with the log of these edits, if there is one."""
    return judge(edits, read(log), folder) if os.path.exists(log) else ["it was not tried: there is no log"]


def judge_apart(root, target, crate, edits):
    """What is wrong with each of a file's edits alone."""
    folder = os.path.join(root, "crates", crate)
    return [f"alone, {fault}" for edit in edits for fault in judge_log([edit], log_of(target, crate, edit.name), folder)]


def judge_all(root, target, crates, show=False, apart=False):
    """Judges the edits of these crates, or of all; says what is wrong, and returns how many faults there are."""
    files, wrong, names = 0, [], set()
    for crate, label, path in edit_files(root, crates):
        edits, faults = judge_file(root, None if apart else target, crate, label, path)
        faults += judge_apart(root, target, crate, edits) if apart else []
        for edit in edits:
            if (crate, edit.name) in names:
                faults.append(f"{edit.name} is the name of another edit, too")
            names.add((crate, edit.name))
            if show:
                print(f"{crate}/{label}.edit {edit.name}: {', '.join(claim.key for claim in edit.claims)}")
        wrong += [f"{crate}/{label}.edit: {fault}" for fault in faults]
        files += 1
    if not files:
        wrong.append(f"there is no edit file{' of ' + ', '.join(crates) if crates else ''}")
    for fault in wrong:
        print(f"edits: {fault}", file=sys.stderr)
    print(f"edits: {len(wrong)} faults" if wrong else f"edits: {len(names)} in {files} files, {'each refused where it must be' if target else 'in order'}")
    return len(wrong)


def log_of(target, crate, label):
    return os.path.join(target, "must-fail", crate, label + ".log")


def below(root):
    """The crates of the repository that each crate uses, directly or not."""
    uses = {}
    for line in read(os.path.join(root, "crates.txt")).splitlines():
        name, colon, deps = line.partition("#")[0].partition(":")
        if colon:
            uses[name.split()[0]] = deps.split()
    found = {}

    def all_of(name):
        if name not in found:
            found[name] = set()
            for dep in uses.get(name, []):
                found[name] |= {dep} | all_of(dep) if dep in uses else set()
        return found[name]

    return {name: all_of(name) for name in uses}


@functools.lru_cache(maxsize=None)
def kit_line():
    return subprocess.run(["rt", "version"], stdout=subprocess.PIPE, check=True).stdout


@functools.lru_cache(maxsize=None)
def texts_of(root, crate):
    """The texts of a crate that a check reads, with their paths."""
    found = []
    for part in PARTS:
        for top, folders, names in os.walk(os.path.join(root, "crates", crate, part)):
            folders.sort()
            for path in sorted(os.path.join(top, it) for it in names):
                with open(path, "rb") as file:
                    found.append(repr((os.path.relpath(path, root), file.read())).encode())
    return b"".join(found)


def sum_of(root, crate, uses, edits):
    """A sum of what the log of a crate's edits is made of: the kit, the crate and those below it, and the replacements."""
    total = hashlib.sha256(kit_line())
    for name in sorted({crate} | uses[crate]):
        total.update(texts_of(root, name))
    total.update(repr([edit.pairs for edit in edits]).encode())
    return total.hexdigest()


def apply(edits, folder):
    """Replaces the texts of a crate, and returns what its files were."""
    were, texts = {}, {}
    for path, old, new in (pair for edit in edits for pair in edit.pairs):
        file = os.path.join(folder, path)
        if file not in texts:
            texts[file] = were[file] = read(file)
        if texts[file].count(old) != 1:
            raise Bad(f"a text stands {texts[file].count(old)} times in {path}: {old}")
        texts[file] = texts[file].replace(old, new)
    for file, text in texts.items():
        write(file, text)
    return were


def write(path, text):
    os.makedirs(os.path.dirname(path), exist_ok=True)
    with open(path, "w", encoding="utf-8") as file:
        file.write(text)


def kept_at(total):
    """Where a log is kept."""
    return os.path.join(os.environ.get("DTA_EDITS") or os.path.expanduser("~/.cache/dta-edits"), total + ".log")


def keep(total, log):
    """Keeps a log for later runs, where that can be."""
    try:
        write(kept_at(total) + f".{os.getpid()}", log)
        os.replace(kept_at(total) + f".{os.getpid()}", kept_at(total))
    except OSError:
        pass


def copy_crates(root, room, crates, built):
    """Copies some crates, with the libraries that were built of them where `built`."""
    lines = read(os.path.join(root, "crates.txt")).splitlines(True)
    write(os.path.join(room, "crates.txt"), "".join(line for line in lines if line.split(":")[0].split(" ")[0] in crates))
    if os.path.exists(os.path.join(root, "HANDLES")):
        shutil.copy(os.path.join(root, "HANDLES"), room)
    for crate in crates:
        for part in [*PARTS, os.path.join("out", "rlib")] if built else PARTS:
            if os.path.isdir(os.path.join(root, "crates", crate, part)):
                shutil.copytree(os.path.join(root, "crates", crate, part), os.path.join(room, "crates", crate, part))


def is_fresh(root, crate):
    """Whether the library of a crate that stands in its out/ was put there after its texts."""
    try:
        made = os.stat(os.path.join(root, "crates", crate, "out", "rlib", f"{crate}.rlib", "format")).st_ctime
    except OSError:
        return False
    return all(os.stat(os.path.join(top, name)).st_ctime <= made for part in PARTS for top, _, names in os.walk(os.path.join(root, "crates", crate, part)) for name in names)


def prover(root, crate, uses, kept):
    """The words of a check over the libraries that `rt ci` left in out/, which `rt check` doesn't take, as it can't tell what they were made of."""
    kit = os.path.dirname(subprocess.run(["rt", "doc"], stdout=subprocess.PIPE, encoding="utf-8", check=True).stdout.strip())
    line = next(line for line in read(os.path.join(root, "crates.txt")).splitlines() if re.match(rf"{crate}\b[^:]*:", line))
    source = "src/main.rt" if os.path.exists(os.path.join(root, "crates", crate, "src", "main.rt")) else "src/lib.rt"
    words = [os.path.join(kit, "bin", "rattle"), "check", "--crate-name", crate, source, "-L", f"dependency={kit}/rlibs"]
    for dep in ["std", *line.partition(":")[2].split()]:
        words += ["--extern", f"{dep}={root}/crates/{dep}/out/rlib/{dep}.rlib" if dep in uses else f"{dep}={kit}/rlibs/{dep}.rlib"]
    for dep in sorted(uses):
        words += ["-L", f"dependency={root}/crates/{dep}/out/rlib"]
    words += ["--crate-type", "staticlib"] if "staticlib" in line.partition(":")[0].split() else []
    return [*words, "--antt-project", f"{kit}/rattle/logic/antt-project.json", "--logic-built", f"{kit}/logic_built", "--incremental", kept, "--jobs", "1"]


def log_crate(root, target, crate, uses, files, jobs):
    """Makes the logs of a crate's edit files, in a copy of it and of those below: label, edits and sum of each."""
    left = all(is_fresh(root, dep) for dep in uses) and not all(os.path.exists(os.path.join(root, "crates", dep, "out", "rlib", "stamp")) for dep in uses)
    with tempfile.TemporaryDirectory() as room:
        copy_crates(root, room, {crate} if left else {crate} | uses, not left)
        folder, words = os.path.join(room, "crates", crate), ["rt", "check", *jobs]
        if left:
            words = prover(root, crate, uses, os.path.join(room, "kept"))
            os.mkdir(os.path.join(room, "kept"))
        for label, edits, total in files:
            were = {}
            try:
                were = apply(edits, folder)
                ran = subprocess.run(words, cwd=folder, stdin=subprocess.DEVNULL, stdout=subprocess.PIPE, stderr=subprocess.STDOUT, errors="replace", check=False)
                write(log_of(target, crate, label), ran.stdout)
                if ENDED.search(ran.stdout):
                    keep(total, ran.stdout)
            except Bad as bad:
                write(log_of(target, crate, label), f"edits: {bad}\n")
            for file, text in were.items():
                write(file, text)


def free_memory():
    """The bytes of memory that are free; none where the system doesn't say."""
    try:
        found = re.search(r"^MemAvailable: *(\d+) kB", read("/proc/meminfo"), re.M)
    except OSError:
        found = None
    return int(found.group(1)) * 1024 if found else 0


def make_logs(root, target, crates, apart=False, most=None):
    """Makes the logs that are not kept."""
    uses, wanted = below(root), {}
    for crate, label, path in edit_files(root, crates):
        try:
            edits = edits_of(read(path))
        except Bad:
            continue
        for name, some in [(edit.name, [edit]) for edit in edits] if apart else [(label, edits)]:
            total = sum_of(root, crate, uses, some)
            if os.path.exists(kept_at(total)):
                write(log_of(target, crate, name), read(kept_at(total)))
            else:
                wanted.setdefault(crate, []).append((name, some, total))
    if not wanted:
        return
    workers = max(1, min(most or os.cpu_count() or 1, len(wanted), free_memory() // CHECK_MEMORY))
    jobs = ["--jobs", "1"] if workers > 1 else []
    # the lowest first, whose libraries others then find
    with concurrent.futures.ThreadPoolExecutor(workers) as pool:
        for done in [pool.submit(log_crate, root, target, crate, uses[crate], wanted[crate], jobs) for crate in sorted(wanted, key=lambda crate: len(uses[crate]))]:
            done.result()


def main():
    parser = argparse.ArgumentParser(description="judge the edits that must be refused")
    parser.add_argument("--target", default=None)
    parser.add_argument("--names", action="store_true")
    parser.add_argument("--apart", action="store_true")
    parser.add_argument("--jobs", type=int, help="the most checks at once (default: one for each processor)")
    parser.add_argument("crates", nargs="*")
    words = parser.parse_args()
    root = os.path.dirname(os.path.dirname(os.path.abspath(__file__)))
    for crate in words.crates:
        if not os.path.isdir(os.path.join(root, "crates", crate)):
            parser.error(f"there is no crate {crate}")
    if words.names:
        return 1 if judge_all(root, None, words.crates, show=True) else 0
    target = os.path.abspath(words.target or os.path.join(root, "target"))
    if words.apart and not words.crates:
        parser.error("--apart takes the names of crates")
    make_logs(root, target, words.crates, words.apart, words.jobs)
    return 1 if judge_all(root, target, words.crates, apart=words.apart) else 0


if __name__ == "__main__":
    sys.exit(main())
