"""The functions of a crate's source files, and what must-fail edits make of their texts."""
import difflib
import os
import re
from collections import namedtuple

FUNCTION = re.compile(r"( *)(?:pub(?:\([^)]*\))? )?((?:const |unsafe )*)(extern \"C\" )?fn (\w+)")
TYPE = re.compile(r"(?:pub(?:\([^)]*\))? )?(?:struct|enum|union) (\w+)")
CONSTANT = re.compile(r" *(?:pub(?:\([^)]*\))? )?const (\w+): [^=]*= (?:-?[\d_]+|0x[\da-fA-F_]+);")
LAW = re.compile(r" *ensures (\w+) \{ (\w+) ≡ ")
IMPL = re.compile(r"impl(?:<[^{]*?>)? (?:(\w+)(?:<(.*?)>)? for )?&?(?:'\w+ )?(\w+)")
FALLS = re.compile(r"(?m)^# falls in (\S+)$")
# A function: its module, and the paths that it may have in what a check says. One of a source file: its name, the lines of its head, of its body's first
# and of its body's last brace, whether it is computed with, whether C calls it, and whether it is a trait's.
Target = namedtuple("Target", "module names")
Function = namedtuple("Function", "name head first last target is_const is_extern of_trait")
# One edit: its file, the pairs of texts by file, the functions that must fall, for a constant the goal of its law's clause, for one that is made in a copy the
# function's file, the function and the copy's name, and whether it is tried by itself. Where what must fall can't be told there are no targets.
Edit = namedtuple("Edit", "file pairs targets clause copied is_alone")
HOLLOW = "loop {}"


def module_of(path):
    """The path of a source file's module below its crate."""
    parts = path[len("src/") : -len(".rt")].split("/")
    return [it for it in parts if it not in ("lib", "main", "mod")]


def impl_of(lines, at, indent):
    """The impl around a line: its type, the names that the kit may give it, which have its trait where it has one, with the trait's own types or without,
    and whether it is of a trait."""
    if not indent:
        return "", [""], False
    line = next((it for it in reversed(lines[:at]) if it and not it.startswith(" ")), "")
    found = IMPL.match(line)
    if not found:
        return "", [], True
    name = found[3][0].upper() + found[3][1:] + (found[1] or "")
    given = re.findall(r"(?:^|, )&?(?:'\w+ )?(\w+(?:::\w+)*)", found[2] or "")
    return found[3], [name, name + "".join(it[0].upper() + it[1:] for path in given for it in path.split("::"))], bool(found[1])


def is_declared(lines):
    """Whether a head's lines end as a declaration does that has no body: by a semicolon outside of all braces."""
    depth = 0
    for line in lines:
        depth += line.count("{") - line.count("}")
        if depth == 0 and line.endswith(";"):
            return True
    return False


def functions_of(path, text, homes):
    """The functions of a source file that have a body, as the kit's formatter lays them out: each ends at a brace under its first letter. A method is named by
    the module of its type, of which homes has the crate's."""
    lines, found = text.split("\n"), []
    for at, line in enumerate(lines):
        head = FUNCTION.match(line)
        if not head:
            continue
        of_type, around, of_trait = impl_of(lines, at, head[1])
        # (a body stands between a line that is an opening brace or ends the head by one, and the brace that closes it)
        opens = (it for it in range(at, len(lines)) if lines[it].startswith(head[1] + "{") or lines[it].startswith((line, head[1] + ")")) and lines[it].endswith((" {", "}")))
        first = next(opens, None)
        if first is None or is_declared(lines[at:first]):
            continue
        last = first if lines[first].endswith("}") else next((it for it in range(first, len(lines)) if lines[it] == head[1] + "}"), first)
        module = "::".join(module_of(path))
        modules = {module, *homes.get(of_type, ())} if module not in homes.get(of_type, ()) else {module}
        names = frozenset("::".join(filter(None, [home, it, head[4]])) for it in around for home in modules)
        found.append(Function(head[4], at, first, last, Target(module, names), "const " in head[2], bool(head[3]), of_trait))
    return found


def first_attribute(lines, head):
    """The line at which the attributes above a function's head begin, of one line each as the kit's formatter lays them out, or the head's where it has none."""
    while head > 0 and lines[head - 1].lstrip().startswith("#["):
        head -= 1
    return head


def read_edit(file):
    """An edit's pairs of texts, each with the file that it changes (the kit has read them once, so they are well formed), and the functions that it says must
    fall."""
    path, old, pairs = "", "", []
    with open(file, encoding="utf-8") as it:
        text = it.read()
    for line in text.split("\n"):
        if line.startswith("file: "):
            path = line[len("file: ") :].strip()
        elif line.startswith("old: "):
            old = line[len("old: ") :]
        elif line.startswith("new:"):
            pairs.append((path, old, line[len("new:") :].removeprefix(" ")))
    return pairs, {Target(it.rpartition("::")[0], frozenset([it])) for it in FALLS.findall(text)}


def begins_body(before, after):
    """Whether a line of a function's head is followed by the beginning of a body, on that line."""
    return after.startswith(before.rstrip("{")) and "{ " in after[len(before) - 1 :]


class Texts:
    """The texts of a crate, and what edits make of them."""

    def __init__(self, folder):
        self.folder, self.read, self.laws, self.homes = folder, {}, {}, {}
        self.paths = sorted(os.path.relpath(f"{at}/{name}", folder) for at, _, names in os.walk(f"{folder}/src") for name in names)
        for path in self.paths:
            for line in self.of(path).split("\n"):
                found = TYPE.match(line)
                if found:
                    self.homes.setdefault(found[1], set()).add("::".join(module_of(path)))
        for path in self.paths:
            functions = functions_of(path, self.of(path), self.homes)
            for number, line in enumerate(self.of(path).split("\n")):
                law = LAW.match(line)
                holder = [it for it in functions if it.head < number < it.first]
                if law and holder:
                    self.laws[law[2]] = holder[0].target, law[1]
        # (a clause that stands alone has no name in its function's goal)
        alone = [target for target, _ in self.laws.values()]
        self.laws = {it: (target, "returns" if alone.count(target) == 1 else f"returns-clause-{clause}") for it, (target, clause) in self.laws.items()}

    def of(self, path):
        if path not in self.read:
            with open(f"{self.folder}/{path}", encoding="utf-8") as it:
                self.read[path] = it.read()
        return self.read[path]

    def with_edits(self, edits):
        """The changed texts by path, or None where an edit's text doesn't stand once among the others'. Copies are made last: they repeat texts."""
        texts = {}
        for path, old, new in (pair for edit in edits if not edit.copied for pair in edit.pairs):
            text = texts.get(path) or self.of(path)
            if text.count(old) != 1:
                return None
            texts[path] = text.replace(old, new)
        for edit in edits:
            if edit.copied:
                path, function, name = edit.copied
                texts[path] = self.with_copy(path, texts.get(path) or self.of(path), edit, function, name)
        return texts

    def with_copy(self, path, text, edit, function, name):
        """The text with a copy of a function and its attributes below it, in which the edit is made."""
        alone = self.with_edits([edit._replace(copied=None)])[path]
        lines, below = alone.split("\n"), text.split("\n")
        found = next(it for it in functions_of(path, alone, self.homes) if it.target == function.target)
        place = next(it for it in functions_of(path, text, self.homes) if it.target == function.target).last + 1
        head = lines[found.head].replace(f"fn {function.name}", f"fn {name}", 1)
        attributes = lines[first_attribute(lines, found.head) : found.head]
        return "\n".join([*below[:place], "", *attributes, head, *lines[found.head + 1 : found.last + 1], *below[place:]])

    def is_plain(self, function, text):
        """Whether a copy of a function can stand for it: one of no trait, with one name, that isn't computed with, that C doesn't call, that doesn't call
        itself, and that has no closures with proofs of their own."""
        if function.of_trait or function.is_const or function.is_extern or len(function.target.names) != 1:
            return False
        body = "\n".join(text.split("\n")[function.head + 1 : function.last + 1])
        parts, module = min(function.target.names).split("::"), [it for it in function.target.module.split("::") if it]
        closures = "/".join([*module, "fn", *parts[len(module) :]])
        cycle = "/".join([*parts[:-1], f"+{function.name}"])
        calls_itself = re.search(rf"(?<![\w.:]){function.name}\(|\b(?:self\.|Self::){function.name}\(", body)
        return not calls_itself and not any(os.path.isdir(f"{self.folder}/proofs/{it}") for it in (closures, cycle))

    def copied(self, edit, name_of):
        """The edit as made in a copy of its function, or None where it isn't of the body of one plain function."""
        paths = {path for path, _, _ in edit.pairs}
        if len(paths) != 1 or len(edit.targets) != 1 or edit.clause or edit.is_alone:
            return None
        (path,), (target,) = paths, edit.targets
        text = self.with_edits([edit])[path]
        now = [it for it in functions_of(path, text, self.homes) if it.target == target]
        was = [it for it in functions_of(path, self.of(path), self.homes) if it.target == target]
        if len(now) != 1 or len(was) != 1 or not self.is_plain(now[0], text):
            return None
        heads = [source.split("\n")[it.head : it.first] for source, it in ((text, now[0]), (self.of(path), was[0]))]
        if heads[0] != heads[1]:
            return None
        name = name_of(was[0].name)
        made = min(target.names).removesuffix(was[0].name) + name
        return edit._replace(copied=(path, was[0], name), targets={Target(target.module, frozenset([made]))})

    def hollow(self, texts, keeps, links):
        """These texts with the functions hollow that nothing keeps, and the paths of these functions in what a check says. Links has those that one has."""
        texts, hollow = dict(texts), []
        for path in self.paths:
            text = texts.get(path) or self.of(path)
            lines = text.split("\n")
            functions = functions_of(path, text, self.homes)
            kept = [it for it in functions if keeps(it.target)]
            for function in reversed(functions):
                known = function.target.names & links
                has_kept = any(function.first <= it.head <= function.last for it in kept)
                is_inner = any(it.first < function.head < it.last for it in functions)
                is_fixed = function.is_const or function.is_extern or function.first == function.last
                if len(known) == 1 and not (has_kept or is_inner or is_fixed or function in kept):
                    indent = lines[function.last][: -len("}")]
                    lines[function.first + 1 : function.last] = [f"{indent}    {HOLLOW}"]
                    hollow += known
            if "\n".join(lines) != text:
                texts[path] = "\n".join(lines)
        return texts, hollow

    def edit(self, file):
        """An edit with what must fall by it: nothing where that can't be told."""
        pairs, said = read_edit(file)
        edit = Edit(file, pairs, said, "", None, bool(said))
        if said:
            return edit
        texts = self.with_edits([edit])
        targets, clause, constants = set(), "", 0
        for path, text in (texts or {}).items():
            if not path.startswith("src/"):
                return edit
            before, after = self.of(path).split("\n"), text.split("\n")
            functions = functions_of(path, self.of(path), self.homes)
            for what, first, end, start, stop in difflib.SequenceMatcher(None, before, after, autojunk=False).get_opcodes():
                if what == "equal":
                    continue
                inside = [it for it in functions if it.first < first and end <= it.last and not it.is_const]
                # (a body may begin behind the last line of its function's head, too)
                begins = (end, stop) == (first + 1, start + 1) and begins_body(before[first], after[start])
                begun = [it for it in functions if begins and it.head <= first <= it.first]
                constant = CONSTANT.fullmatch("\n".join(after[start:stop]))
                if inside or begun:
                    targets.add([*begun, *inside][-1].target)
                elif constant and constant[1] in self.laws:
                    law, clause = self.laws[constant[1]]
                    targets.add(law)
                    constants += 1
                else:
                    return edit
        if constants and len(targets) + constants != 2:
            return edit
        return edit._replace(targets=targets, clause=clause)
