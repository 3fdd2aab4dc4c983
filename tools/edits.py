"""Must-fail edits, as many to a check as can be.

The kit tries each edit by a check of its own, which reads all libraries below and proves what the crate's other functions need each time. Here all edits of
a crate that change the body of one function each are applied together, and one check must refuse every one of those functions for a goal of its own: a
function that is refused only since it calls another that is, doesn't count. Where a function has several edits, each after the first is made in a copy of the
function, below it and under a name of its own, with a copy of its proofs. So they are told more than by the kit's way, by which an edit falls with whatever
function falls.

What no edit touches is hollow in such a check: a body that never ends, under the same contract, with a proof that is refused at once. Callers rest on
contracts alone, so what falls, and for which goals, is the same, and of the crate only what edits change is proved. (That every function as it stands is
proved is what the gate's own check of the crate says.)

Edits of constants are applied together too, and each must fall by the clause of a law that states its constant. An edit of anything else says by a line
`# falls in FUNCTION` which function must fall, and is tried by itself: where no goal of the function's own falls, its proof must, which as it stands holds.
Without such a line it is tried on its file's module. What isn't refused so is tried by the kit's own way.
"""
import copy
import os
import re
import shutil
import tempfile

from texts import Texts, functions_of, module_of


def links_of(crate):
    """The paths of a crate's functions, as a check says them, where its library was made: those that have a proof."""
    try:
        with open(f"{crate.folder}/out/rlib/{crate.name}.rlib/toolchain/checked.json", encoding="utf-8") as it:
            parts = re.findall(rf'^\["part/Rattle-{crate.name}-proofs\.(.*)\.TheLink",', it.read(), re.M)
    except (OSError, UnicodeDecodeError):
        return set()
    return {it.replace(".", "::") for it in parts if re.fullmatch(r"[\w.]+", it) and ".fn." not in f".{it}."}


def errors_in(lines):
    """The errors in proof files that a check told, but those of a name that an edit took away or a hollow function's proof hasn't."""
    named = re.compile(r".*(has no field|is not in scope|has no `|was not admitted)")
    found = [it.removeprefix("./") for it in lines if re.match(r"(\./)?proofs/\S+:\d+:\d+: error", it)]
    return [it for it in found if not named.match(it)]


def fallen(rt, crate, texts, homes, said):
    """The functions that a check refused for their own sake, each with the line that says which goal fell, or none where only a proof file names what an
    edit took away; None where the check says nothing of contracts."""
    lines = said.stdout.rstrip("\n").split("\n")
    if not said.returncode:
        return {}
    if said.returncode != 1 or not re.match(r"logic=not-proved|only=\d+ proved=", lines[-1]) or rt.rtlib.STALE.search(said.stdout):
        return None
    if any(rt.unread(it, texts) for it in lines):
        return None
    errors = errors_in(lines)
    functions = {path: functions_of(path, text, homes) for path, text in texts.items()}
    goals = {}
    for path, line, goal in re.findall(r"^note: (src/\S+?):(\d+):\d+: (it is not proved .*)", said.stdout, re.M):
        inside = [it.target for it in functions.get(path, ()) if it.head < int(line) <= it.last + 1]
        goals.update({name: goal for it in inside[-1:] for name in it.names})
    found = {}
    for line in lines:
        told = re.match(rf"fn {crate.name}::(\S+): (.*)", line)
        if told and "`search` did not prove" in told[2]:
            found[told[1]] = told[2]
        elif told and told[2].startswith("not proved"):
            folder = f"proofs/{told[1].replace('::', '/')}/"
            found[told[1]] = next((it for it in errors if it.startswith(folder)), goals.get(told[1]))
    return found


def is_of(name, target):
    """Whether a function is the target or a closure in it, which the kit names by the module, `fn`, and the function."""
    parts = name.split("::")
    if "fn" in parts[:-1]:
        at = parts.index("fn")
        return any("::".join(parts[:at] + parts[at + 1 : end]) in target.names for end in range(at + 2, len(parts)))
    return name in target.names


def path_of(target):
    """What a check is asked for so that it proves the target: its name where it can have but one, or else its module, with all that stands in it."""
    return min(target.names) if len(target.names) == 1 or not target.module else target.module


def words_of(fell):
    return re.sub(r"^no proof: (expected answers in \S+ )?", "", fell)[:160]


def write(path, text):
    os.makedirs(os.path.dirname(path), exist_ok=True)
    with open(path, "w", encoding="utf-8") as it:
        it.write(text)


class Room:
    """A copy of a crate, in which one check is made."""

    def __init__(self, crate, folder):
        self.crate, self.folder = copy.copy(crate), folder
        for part in ("src", "specs", "proofs"):
            if os.path.isdir(f"{crate.folder}/{part}"):
                shutil.copytree(f"{crate.folder}/{part}", f"{folder}/{part}")
        self.crate.folder, self.crate.words = folder, crate.words

    def proofs_of(self, name):
        return f"{self.folder}/proofs/{name.replace('::', '/')}"

    def without_proof(self, name):
        """Gives a hollow function a proof that is refused at once, in place of a search for one."""
        for file in ("Answers", "Invariants"):
            if os.path.isfile(f"{self.proofs_of(name)}/{file}.antt"):
                os.remove(f"{self.proofs_of(name)}/{file}.antt")
        last = name.rpartition("::")[2]
        write(f"{self.proofs_of(name)}/Proof.antt", f"pub {last}_spec : Hollow\n{last}_spec = hollow\n")

    def copy_proofs(self, edit):
        """Gives a function's copy the function's proofs."""
        _, function, name = edit.copied
        was = min(function.target.names)
        if os.path.isdir(self.proofs_of(was)):
            for at, _, files in os.walk(self.proofs_of(was)):
                for file in files:
                    with open(f"{at}/{file}", encoding="utf-8") as it:
                        text = it.read().replace(f".{function.name}.", f".{name}.").replace(f"{function.name}_spec", f"{name}_spec")
                    write(f"{self.proofs_of(was.removesuffix(function.name) + name)}/{os.path.relpath(f'{at}/{file}', self.proofs_of(was))}", text)


class Crate:
    """The edits of a crate, under way: those that were refused, by file. Their checks fill a folder with what they prove, which begins empty or with the
    work of others: so what no edit touches is proved once."""

    def __init__(self, rt, crate, files, flags, kept):
        self.rt, self.crate, self.flags, self.kept, self.links = rt, crate, flags, kept, links_of(crate)
        self.files, self.texts, self.told, self.why, self.standing = files, Texts(crate.folder), {}, "", None
        self.edits = [self.texts.edit(it) for it in files if not rt.read_edit(it, crate.folder)[1]]

    def only(self, edits, paths, keeps=None):
        """What falls of some modules and functions, and what they reach, with these edits, and what the check said. Where it is told which functions it
        keeps, all others are hollow, and none of these is among what falls."""
        texts, hollow = self.texts.with_edits(edits), []
        if keeps:
            texts, hollow = self.texts.hollow(texts, keeps, self.links)
        with tempfile.TemporaryDirectory(prefix=f"rt-edits-{os.getpid()}-") as folder:
            room = Room(self.crate, folder)
            for edit in edits:
                if edit.copied:
                    room.copy_proofs(edit)
            for name in hollow:
                room.without_proof(name)
            said = self.rt.checked(room.crate, texts, [*self.flags, *(word for it in paths for word in ("--only", it))], self.kept)
        found = fallen(self.rt, self.crate, texts, self.texts.homes, said)
        return found if found is None else {name: why for name, why in found.items() if name not in hollow}, said.stdout

    def check(self, edits):
        """The functions that fall by edits that are applied together, where the check can be trusted with them."""
        if self.texts.with_edits(edits) is None:
            return {}
        targets = {it for edit in edits for it in edit.targets}
        is_of_constants = any(it.clause for it in edits)
        # (what is touched, by its name; where that can't be told, by its module)
        found, said = self.only(edits, sorted({path_of(it) for it in targets}), lambda it: any(it.names & target.names for target in targets))
        if found is None:
            found, said = self.only(edits, sorted({min(it.names) if is_of_constants or not it.module else it.module for it in targets}))
        # A function that falls though no edit touched it: this check isn't trusted with any of them. (What a law calls may fall with a constant. The
        # law's own clause is an equation of the constant and a number.)
        odd = [name for name in found or {} if not is_of_constants and not any(is_of(name, it) for it in targets)]
        if found is None or odd:
            self.why = f"; a check of {len(edits)} edits wasn't used: {', '.join(odd) or said[-300:]}"
        return {} if found is None or odd else found

    def refused(self, edit, found):
        """The function that falls by an edit, with the line that says so."""
        for name, said in found.items():
            if said and any(is_of(name, it) for it in edit.targets) and (not edit.clause or f"`{edit.clause}`" in said):
                return f"{name}: {words_of(said)}"
        return None

    def tell(self, edit, why):
        self.told[edit.file] = getattr(self.rt, "REFUSED", True), f"must-fail {self.crate.name}/{os.path.basename(edit.file)}: refused, as it must be: {why}"

    def note(self, edits, found):
        """Notes the edits that are refused, and says whether there was one."""
        told = [(edit, why) for edit in edits for why in [self.refused(edit, found)] if why]
        for edit, why in told:
            self.tell(edit, why)
        return bool(told)

    def by_module(self, edit):
        """Tries an edit of source files by itself, on their modules alone, of which some function must fall and some must not."""
        modules = sorted({"::".join(module_of(path)) for path, _, _ in edit.pairs if path.startswith("src/")})
        texts = self.texts.with_edits([edit])
        if texts is None or "" in modules or any(not path.startswith("src/") for path in texts):
            return
        found, said = self.only([edit], modules, lambda it: any(f"{name}::".startswith(f"{module}::") for name in it.names for module in modules))
        fell = [f"{name}: {words_of(why)}" for name, why in (found or {}).items() if why and any(name.startswith(f"{it}::") for it in modules)]
        if fell and re.search(r"^only=\d+ proved=[1-9]", said, re.M):
            self.tell(edit, fell[0])

    def proved(self):
        """The functions that edits tried by themselves name, and that are proved as they stand, by one check."""
        if self.standing is None:
            targets = {it for edit in self.edits if edit.is_alone for it in edit.targets}
            said = self.only([], sorted(min(it.names) for it in targets), lambda it: any(it.names & target.names for target in targets))[1]
            self.standing = {min(it.names) for it in targets if f"fn {self.crate.name}::{min(it.names)}: proved" in said.split("\n")}
        return self.standing

    def by_name(self, edit):
        """Tries an edit that says which function must fall: by a goal of its own, or (as a law does, whose proof is a lemma of another file) since its proof
        is refused, which as it stands isn't."""
        if self.texts.with_edits([edit]) is None:
            return
        names = sorted(min(it.names) for it in edit.targets)
        found, said = self.only([edit], names, lambda it: any(it.names & target.names for target in edit.targets))
        errors = errors_in(said.split("\n"))
        if found and not self.note([edit], found) and errors and all(it in found and it in self.proved() for it in names):
            self.tell(edit, f"{names[0]}: {words_of(errors[0])}")

    def together(self, edits, has_copies):
        """Tries edits that have targets, as many in a check as touch different functions, copies or constants, for as long as that refuses some."""
        while edits:
            batch, taken = [], set()
            for edit in edits:
                touched = {edit.clause} if edit.clause else edit.targets
                if not taken & touched and self.texts.with_edits([*batch, edit]) is not None:
                    batch, taken = [*batch, edit], taken | touched
                elif has_copies:
                    batch += filter(None, [self.texts.copied(edit, lambda name, at=len(batch): f"{name}_edit{at}")])
            if not self.halved(batch):
                break
            edits = [it for it in edits if it.file not in self.told]

    def halved(self, batch):
        """Tries edits in one check, or where that refuses none, half of them in each of two. Says whether some were refused."""
        if self.note(batch, self.check(batch)):
            return True
        if len(batch) == 1:
            return False
        half = len(batch) // 2
        return any([self.halved(batch[:half]), self.halved(batch[half:])])

    def left(self, is_wanted):
        return [it for it in self.edits if it.file not in self.told and is_wanted(it)]

    def every(self):
        """Tries all edits, and returns the files that are left for the kit's own way."""
        for has_copies in (True, False):
            self.together(self.left(lambda it: it.targets and not it.clause and not it.is_alone), has_copies)
        self.together(self.left(lambda it: it.clause), False)
        for edit in self.left(lambda it: it.is_alone):
            self.by_name(edit)
        for edit in self.left(lambda it: not it.is_alone):
            self.by_module(edit)
        rest = [it for it in self.files if it not in self.told]
        if rest:
            names = " ".join(os.path.basename(it) for it in rest)
            print(f"rt: {self.crate.name}: {len(self.told)} of {len(self.files)} edits refused together; one by one: {names}{self.why}", flush=True)
        return rest
