#!/usr/bin/env python3
"""Tries mutants: changes of functions that the prover has to refuse.

    tools/mutants.py [--jobs N] [CRATE | CRATE/WORD ..]
    tools/mutants.py --gate
    tools/mutants.py --check

Without a name it tries those of all crates. A mutant is a file `WORD.edit` in `crates/CRATE/mutants`, or in
`crates/CRATE/specified/mutants` if the specification names its fault. It has the form of the toolchain's
`must-fail` edits, and a line that names functions as `rt check` prints them:

    only: PATH..     the functions that it changes
    alone: PATH..    for a change of a declaration or of a definition: the functions whose clauses have to fail

Mutants of different functions stand in one copy of the crate, and one `check --only` over their functions
proves these and nothing above them. That is sound, because a proof cites the contract of a function that it
calls, and not its code. A mutant counts as refused if the prover refuses a goal of its own function. If the
function calls one that another mutant changes, and has no such goal, the mutant is tried in a later round, and
if the function is proved, alone. A mutant with a line `alone` is always tried alone.

For each mutant the script prints the goal that refuses it. A refusal does not count if a file of proofs only
names what the change took away. A crate's `control.edit` changes nothing that a contract says, and must not be
refused. The status is 1 if a mutant is not refused, or a control is.

`--gate` tries the mutants of `specified/` alone, over the libraries that `rt ci` has just built. Otherwise
`rt lib` builds the libraries, and the check begins with what `rt check` has kept. `--jobs` says how many crates
are tried side by side. `--check` proves nothing: it says which mutants name a function that is not there, or a
text that is not in the sources.
"""
import argparse
import os
import re
import shutil
import subprocess
import sys
import tempfile
import time
from concurrent.futures import ThreadPoolExecutor

sys.dont_write_bytecode = True
import docs

ROOT = os.path.dirname(os.path.dirname(os.path.realpath(__file__)))
KIT = os.path.dirname(subprocess.run(["rt", "doc"], stdout=subprocess.PIPE, text=True, check=True).stdout.split("\n")[0])
CONTROL = "control"
SPECIFIED = "specified/mutants"
# Where a check keeps what it has proved.
KEPT = "out/incremental"
# What antt says if a proof names something that the code no longer has.
GONE = r"has no field|is not in scope|has no `|was not admitted|\(nearest: "


class Mutant:
    """One file of a change: its pairs of texts by file, and its functions."""

    def __init__(self, file):
        self.name = os.path.basename(file)[: -len(".edit")]
        self.pairs, self.functions, self.is_alone = [], [], False
        path = old = None
        with open(file, encoding="utf-8") as lines:
            for line in lines.read().split("\n"):
                word, _, rest = line.partition(":")
                if word in ("only", "alone"):
                    self.functions, self.is_alone = rest.split(), word == "alone"
                elif word == "file":
                    path = rest.strip()
                elif word == "old":
                    old = rest[1:]
                elif word == "new":
                    self.pairs.append((path, old, rest[1:]))
        if not self.functions:
            sys.exit(f"{file}: a line 'only:' or 'alone:' has to name its functions")

    def applied(self, texts, read):
        """The texts with this change, or None if one of its texts is not in its file exactly once."""
        made = dict(texts)
        for path, old, new in self.pairs:
            text = made.setdefault(path, read(path))
            if text.count(old) != 1:
                return None
            made[path] = text.replace(old, new)
        return made


class Crate:
    """A copy of a crate."""

    def __init__(self, name, listed, room):
        self.name, self.copy, self.said = name, f"{room}/{name}", []
        for part in ("src", "specs", "proofs", KEPT):
            if os.path.isdir(f"{ROOT}/crates/{name}/{part}"):
                shutil.copytree(f"{ROOT}/crates/{name}/{part}", f"{self.copy}/{part}")
        root = next(it for it in ("src/lib.rt", "src/main.rt") if os.path.exists(f"{self.copy}/{it}"))
        self.words = [f"{KIT}/bin/rattle", "check", "--crate-name", name, root, "--jobs", "1", "--links", f"{name}="]
        self.words += ["--antt-project", f"{KIT}/rattle/logic/antt-project.json", "--logic-built", f"{KIT}/logic_built"]
        for it in ["std", *listed[name]]:
            self.words += ["--extern", f"{it}={built(it) if it in listed else f'{KIT}/rlibs/{it}.rlib'}"]
        for folder in [f"{KIT}/rlibs", *[os.path.dirname(built(it)) for it in libraries_of(name, listed)]]:
            self.words += ["-L", f"dependency={folder}"]
        self.words += ["--incremental", KEPT]

    def say(self, text):
        """Keeps a line, so that the lines of crates that are tried side by side do not mix."""
        self.said.append(f"{self.name}: {text}")

    def read(self, path):
        return read_file(f"{self.copy}/{path}")

    def check(self, texts, functions):
        """Checks these functions with these texts in place of the crate's own, and returns what the check says."""
        own = {path: self.read(path) for path in texts}
        for path, text in texts.items():
            write(f"{self.copy}/{path}", text)
        words = self.words + [word for it in functions for word in ("--only", it)]
        ran = subprocess.run(words, cwd=self.copy, stdin=subprocess.DEVNULL, stdout=subprocess.PIPE,
                             stderr=subprocess.STDOUT, errors="replace", check=False)
        for path, text in own.items():
            write(f"{self.copy}/{path}", text)
        return ran.stdout

    def verdict(self, said, mutant):
        """What a check says of a mutant: `refused`, `gone`, `callee`, `proved` or `unread`, and the reason."""
        if not re.search(r"^only=\d+ proved=\d+$", said, re.M):
            return "unread", next((it for it in said.split("\n") if re.search(r"\berror\b[:[]", it)), said[-300:])
        callee = gone = None
        for path in mutant.functions:
            ended = re.search(rf"^fn {self.name}::{re.escape(path)}: (.*)$", said, re.M)
            if not ended:
                return "unread", f"no function {path} was checked"
            if ended[1] == "proved":
                continue
            goals = re.search(r"`search` did not prove (.*)", ended[1])
            if goals:
                return "refused", f"{path}: {goals[1].partition(';')[0]}"
            # An answer of the function, or if a definition has changed a lemma, that no longer proves its goal.
            own = "proofs/" if mutant.is_alone else f"proofs/{path.replace('::', '/')}/"
            errors = [it for it in said.split("\n") if own in it and ": error: " in it]
            wrong = [it for it in errors if not re.search(GONE, it)]
            if wrong:
                return "refused", f"{path}: {answer_of(wrong[0])}"
            if errors:
                gone = errors[0]
            else:
                callee = f"{path}: {ended[1]}"
        if callee:
            return "callee", callee
        return ("gone", gone) if gone else ("proved", "")

    def together(self, mutants):
        """The texts with as many mutants as fit together, these mutants, and the others."""
        texts, taken, left, functions = {}, [], [], set()
        for it in mutants:
            made = it.applied(texts, self.read)
            if made is None or functions & {*it.functions}:
                left.append(it)
            else:
                texts, taken = made, [*taken, it]
                functions |= {*it.functions}
        return texts, taken, left

    def try_all(self, mutants):
        """Tries the mutants, and returns the number of wrong verdicts."""
        left = [it for it in mutants if not it.is_alone]
        alone = [it for it in mutants if it.is_alone]
        wrong = 0
        while left:
            texts, taken, left = self.together(left)
            if not taken:
                wrong += self.judge(left.pop(0), "unread", "its texts do not fit the files")
                continue
            said = self.check(texts, [path for it in taken for path in it.functions])
            later = []
            for it in taken:
                verdict, why = self.verdict(said, it)
                if verdict == "callee" and len(taken) > 1:
                    later.append(it)
                elif verdict == "refused" or len(taken) == 1:
                    wrong += self.judge(it, verdict, why)
                else:
                    alone.append(it)
            if len(later) == len(taken):
                # Each calls another one: the first is tried without the others.
                alone.append(later.pop(0))
            left = later + left
        for it in alone:
            texts = it.applied({}, self.read)
            if texts is None:
                wrong += self.judge(it, "unread", "its texts do not fit the files")
            else:
                wrong += self.judge(it, *self.verdict(self.check(texts, it.functions), it))
        return wrong

    def judge(self, mutant, verdict, why):
        """Says what became of a mutant, and returns 1 if that is wrong."""
        if mutant.name == CONTROL:
            is_right = verdict == "proved"
            self.say(f"{mutant.name}: {'not refused, as it must be' if is_right else f'WRONG, {verdict}: {why}'}")
            return not is_right
        texts = {
            "refused": f"refused at {why}",
            "gone": f"NOT COUNTED: only a file of proofs names what the change took away: {why}",
            "callee": f"NOT REFUSED at a goal of its own: {why}",
            "proved": "NOT REFUSED: proved with this change",
            "unread": f"BAD EDIT: {why}",
        }
        self.say(f"{mutant.name}: {texts[verdict]}")
        return verdict != "refused"


def answer_of(error):
    """The name of the answer or the lemma that an error is about, or else its text."""
    found = re.search(r": error: `([^`]*)`", error)
    kind = "the answer" if "Answers.antt" in error else "the lemma"
    return f"{kind} `{found[1]}`" if found else error[-160:]


def read_file(file):
    with open(file, encoding="utf-8") as it:
        return it.read()


def write(file, text):
    with open(file, "w", encoding="utf-8") as it:
        it.write(text)


def list_crates():
    """What each crate of crates.txt uses."""
    with open(f"{ROOT}/crates.txt", encoding="utf-8") as file:
        lines = [line.partition("#")[0].partition(":") for line in file]
    return {name.strip(): uses.split() for name, colon, uses in lines if colon}


def libraries_of(name, listed):
    """The libraries of the repository below a crate, each after those that it uses."""
    found = []
    for it in listed[name]:
        if it in listed:
            found += [below for below in [*libraries_of(it, listed), it] if below not in found]
    return found


def built(name):
    """Where a library of the repository is, once it is built."""
    return f"{ROOT}/crates/{name}/out/rlib/{name}.rlib"


def build(names, is_after_ci):
    """Builds libraries, each after those that it uses, unless they are as `rt ci` has built them, without a stamp."""
    stamps = [f"{os.path.dirname(built(it))}/stamp" for it in names]
    if is_after_ci and all(map(os.path.isdir, map(built, names))) and not any(map(os.path.exists, stamps)):
        return
    for name in names:
        ran = subprocess.run(["rt", "lib"], cwd=f"{ROOT}/crates/{name}", stdin=subprocess.DEVNULL,
                             stdout=subprocess.PIPE, stderr=subprocess.STDOUT, errors="replace", check=False)
        if ran.returncode:
            sys.exit(f"{name} is not proved: run `rt lib` in its folder")


def mutants_of(name, folders, words=()):
    """The mutants of a crate in these folders, or those of them that have one of these names."""
    files = []
    for folder in folders:
        at = f"{ROOT}/crates/{name}/{folder}"
        if os.path.isdir(at):
            files += [f"{at}/{it}" for it in sorted(os.listdir(at)) if it.endswith(".edit")]
    return [it for it in map(Mutant, files) if not words or it.name in words]


def head_of(path, parameters):
    """The name of a type or a trait, with what it is applied to, without parameters of the impl."""
    words = re.findall(r"\w+", re.sub(r"(\w+::)+", "", path))
    return words[:1] + [word for word in words[1:] if word not in parameters]


def functions_of(modules, crate):
    """The functions of a crate, as `rt check` prints them."""
    found = set()
    for place, module in modules.items():
        for item in module.items if place[0] == crate else ():
            within, head = place[1:], []
            if item.kind == "impl":
                impl = docs.read_impl(modules, place, item)
                generics = re.match(r"<(?:[^<>]|->|<(?:[^<>]|<[^<>]*>)*>)*>|", docs.flat_header(item).removeprefix("impl"))[0]
                parameters = set(re.findall(r"(?<=[<,])\s*(?:const |')?(\w+)", generics))
                head = head_of(impl.type_text, parameters)
                if impl.trait_text:
                    head = ["".join(word[0].upper() + word[1:] for word in head + head_of(impl.trait_text, parameters))]
                elif len(head) == 1 and impl.target:
                    within = impl.target[1:-1]
                else:
                    head = ["+".join(re.findall(r"\w+", impl.type_text))]
            calls = item.members if item.kind == "impl" else [item]
            found |= {"::".join((*within, *head, call.name)) for call in calls if call.kind == "fn"}
    return found


def find_unfit(listed):
    """Says which mutants do not fit the sources, and returns their number."""
    modules = docs.read_modules(with_tests=True)
    unfit = 0
    for crate in listed:
        read = lambda path, crate=crate: read_file(f"{ROOT}/crates/{crate}/{path}")
        functions = functions_of(modules, crate)
        for it in mutants_of(crate, ["mutants", SPECIFIED]):
            wrong = [f"there is no function {path}" for path in it.functions if path not in functions]
            if it.applied({}, read) is None:
                wrong.append("a text that it replaces is not in its file exactly once")
            for why in wrong:
                print(f"{crate}/{it.name}: {why}")
            unfit += bool(wrong)
    return unfit


def try_crate(name, listed, mutants):
    """Tries mutants of one crate, and returns what to print and the number of wrong verdicts."""
    began = time.time()
    with tempfile.TemporaryDirectory(prefix="mutants-") as room:
        crate = Crate(name, listed, room)
        wrong = crate.try_all(mutants)
    controls = sum(it.name == CONTROL for it in mutants)
    crate.say(f"{len(mutants) - controls} mutants, {wrong} wrong verdicts, {time.time() - began:.0f} s")
    return crate.said, wrong


def main():
    parser = argparse.ArgumentParser(description=__doc__, formatter_class=argparse.RawDescriptionHelpFormatter)
    parser.add_argument("--check", action="store_true", help="only find mutants that do not fit the sources")
    parser.add_argument("--gate", action="store_true", help="try the mutants of specified/ after `rt ci`")
    parser.add_argument("--jobs", type=int, default=len(os.sched_getaffinity(0)), help="crates side by side")
    parser.add_argument("names", nargs="*", metavar="CRATE | CRATE/WORD")
    given = parser.parse_args()
    listed = list_crates()
    if given.check:
        return 1 if find_unfit(listed) else 0
    folders = [SPECIFIED] if given.gate else ["mutants", SPECIFIED]
    words = {}
    for it in given.names:
        crate, _, word = it.partition("/")
        words.setdefault(crate, []).extend([word] * bool(word))
    tried = {it: mutants_of(it, folders, words.get(it, ())) for it in words or listed if it in listed}
    for it in words:
        if not tried.get(it):
            sys.exit(f"there is no such mutant of {it}")
    tried = {it: mutants for it, mutants in tried.items() if mutants}
    build([*dict.fromkeys(it for name in tried for it in libraries_of(name, listed))], given.gate)
    wrong = 0
    with ThreadPoolExecutor(given.jobs) as pool:
        for said, count in pool.map(lambda it: try_crate(it, listed, tried[it]), tried):
            print("\n".join(said), flush=True)
            wrong += count
    return 1 if wrong else 0


if __name__ == "__main__":
    sys.exit(main())
