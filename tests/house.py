"""Looks at the documents and at crates.txt for tests/house.sh."""

import glob
import os
import re
import subprocess
import sys

README_OCTETS = 9000
COLUMNS = 120
CRATE_FILES = 25
FILE_LINES = 400
DOCUMENTS = ["README.md", "CHANGELOG.md", "tests/README.md", "tests/rows/README.md", *sorted(glob.glob("docs/*.md")), *sorted(glob.glob("crates/*/NOTES.md"))]

# What stands once, or so often at most, in the code of the product's crates.
MOST = {
    # (by a desk that stands by, too: which stream a packet of its own ends; by what tells a recording's incidents; by an audit; and by a recorder and a playback, which universe)
    "a datagram is read": (r"(?<!fn )(?<!proved_)\bread_packet\(", 16),
    "a packet's kind is told": (r"\bfn kind_of\(packet\b", 1),
    # (by the network's loop of losses, where it has none, and by C)
    "a monitor's clock is moved": (r"\bmonitor\.tick\(", 3),
    "the next loss is looked for": (r"\bfn next_loss\(streams\b", 1),
    "what stirs a contest is told": (r"\bfn stirs\b", 1),
    "who gives the slots is asked": (r"(?<!fn )\bmerged_with_givers\(", 1),
    "text from elsewhere is made JSON": (r"\bfn push_foreign\b", 1),
    # (by the node's table and its plain form, by the monitor's account, of what a source gave for slots, and of what was sent before a playback began anew)
    "a source's silence is measured": (r"(?:>=|<) NETWORK_DATA_LOSS\b", 8),
    "network data loss is a number": (r"\bconst \w+: \w+ = 2_?500;", 1),
    "the UDP port is a number": (r"\bconst \w+: \w+ = 5_?568;", 1),
}
# Programs of tests, which aren't proved.
PROGRAMS = "tests/programs"
# Crates of tests and measures.
BESIDE = {"fixtures", "refusals", "sacn_bench"}

# Names of files that say nothing of what is in them, so that none stands in two crates.
VAGUE = {"lines", "rows", "texts", "words"}

# Files that stand in a document as examples of a user's, and not of this tree's.
EXAMPLES = ("/etc/", "/dev/", "/usr/", "~")


def text_of(name):
    with open(name, encoding="utf-8") as text:
        return text.read()


def prose_of(name):
    """A document without its blocks of code, whose lines are left empty."""
    lines, is_code = [], False
    for line in text_of(name).split("\n"):
        fence = line.lstrip().startswith("```")
        lines.append("" if is_code or fence else line)
        is_code ^= fence
    return "\n".join(lines)


def anchors_of(name):
    """The anchors of a document's headings, as a browser of repositories makes them."""
    found = set()
    for heading in re.findall(r"^#+ (.*)$", prose_of(name), re.M):
        words = re.sub(r"\[([^]]*)\]\([^)]*\)", r"\1", heading).lower()
        anchor = re.sub(r"[^\w\- ]", "", words).strip().replace(" ", "-")
        count = 0
        while (anchor if count == 0 else f"{anchor}-{count}") in found:
            count += 1
        found.add(anchor if count == 0 else f"{anchor}-{count}")
    return found


def broken_links():
    for name in DOCUMENTS:
        for link in re.findall(r"\]\(([^)\s]+)\)", prose_of(name)):
            if re.match(r"[a-z]+:", link):
                continue
            path, _, anchor = link.partition("#")
            file = os.path.normpath(os.path.join(os.path.dirname(name), path)) if path else name
            if not os.path.exists(file):
                yield f"{name} leads to {link}, which isn't there"
            elif anchor and anchor not in anchors_of(file):
                yield f"{name} leads to {link}, and {file} has no such heading"


def lacking_files():
    """Files that a document names with their folder, from the top or from crates/, docs/ or examples/, and that aren't there."""
    for name in [it for it in DOCUMENTS if not it.endswith(("NOTES.md", "CHANGELOG.md"))]:
        for word in re.findall(r"`([\w.-]+(?:/[\w.-]+)+)`", prose_of(name)):
            if word.startswith(EXAMPLES) or not re.search(r"\.(rt|rs|antt|md|sh|py|rows|c|h|toml|txt|pcap|sacn|hex)$", word):
                continue
            if not any(os.path.exists(os.path.join(folder, word)) for folder in ("", "crates")):
                yield f"{name} names {word}, which isn't there"


def sinking_crates():
    """Crates of crates.txt that name a crate of it which doesn't stand above them, and folders that it leaves out."""
    rows = [line.partition("#")[0].partition(":") for line in text_of("crates.txt").split("\n")]
    crates = {row[0].split()[0]: row[2].split() for row in rows if row[1]}
    above = set()
    for name, below in crates.items():
        for it in below:
            if it in crates and it not in above:
                yield f"{name} names {it}, which doesn't stand above it"
        above.add(name)
    for folder in sorted(os.listdir("crates")):
        if os.path.isdir(f"crates/{folder}/src") and folder not in crates:
            yield f"crates/{folder} isn't named"
    for name in crates:
        if f"`{name}`" not in text_of("docs/ARCHITECTURE.md"):
            yield f"docs/ARCHITECTURE.md doesn't say what {name} is"


def idle_crates():
    """Crates of a line of crates.txt, or of tests/programs/list, whose names stand in no file of the crate that the line is of."""
    for folder, line in [("crates", it) for it in text_of("crates.txt").split("\n")] + [(PROGRAMS, it) for it in text_of(f"{PROGRAMS}/list").split("\n")]:
        head, _, below = line.partition("#")[0].partition(":")
        if not below.strip():
            continue
        name = head.split()[0]
        files = [it for kind in ("rt", "rs", "antt", "edit") for it in glob.glob(f"{folder}/{name}/**/*.{kind}", recursive=True) if "/out/" not in it]
        words = set(re.findall(r"\w+", "\n".join(map(text_of, files))))
        for it in below.split():
            if it not in words:
                yield f"{name} names {it}, which stands in no file of it"


def lost_steps():
    """Functions and types that docs/ARCHITECTURE.md names on a way, and that aren't in the file to which they lead; and ways of more than nine steps."""
    ways = [it.partition("\n") for it in re.split(r"^## ", prose_of("docs/ARCHITECTURE.md"), flags=re.M)]
    ways = [(title, text) for title, _, text in ways if " way to " in title or title.endswith(" way")]
    if len(ways) != 3:
        yield f"docs/ARCHITECTURE.md has {len(ways)} ways"
    for title, text in ways:
        steps = re.findall(r"^\d+\. ", text, re.M)
        if not 1 <= len(steps) <= 9:
            yield f"{title} has {len(steps)} steps"
        for word, path in re.findall(r"\[`([\w:]+)`\]\(\.\./([^)]+)\)", text):
            kind, _, name = word.rpartition("::")
            code = text_of(path)
            if not re.search(rf"\b(fn|struct) {name}\b", code) or (kind and not re.search(rf"\b(struct|trait|impl\b[^\n]*) {kind}\b", code)):
                yield f"{title}: {word} isn't in {path}"


def product_code():
    """The product's code by file, without comments and tests."""
    files = [it for it in glob.glob("crates/*/src/**/*.rt", recursive=True) if it.split("/")[1] not in BESIDE and not it.endswith("tests.rt")]
    return {it: re.sub(r"//[^\n]*", "", text_of(it)) for it in sorted(files)}


def repeated_rules():
    """Rules that stand more often in the product's code than MOST says. Comments and tests don't count."""
    code = product_code()
    for what, (pattern, most) in MOST.items():
        found = [it for it in code for _ in re.findall(pattern, code[it])]
        if not 1 <= len(found) <= most:
            yield f"{what} {len(found)} times: {' '.join(found)}"


def shared_names():
    """Public types of the product that share their name with another one."""
    places = {}
    for path, text in product_code().items():
        for name in re.findall(r"^\s*pub (?:struct|enum|trait|type) (\w+)", text, re.M):
            places.setdefault(name, []).append(path)
    if not places:
        yield "no public type was found"
    for name, found in sorted(places.items()):
        if len(found) > 1:
            yield f"{name} is {len(found)} types: {' '.join(found)}"


def large_crates():
    """Product crates of more files of code than a reader can overlook, and vague names of files that stand in two of them."""
    files, vague = {}, {}
    for path in product_code():
        files.setdefault(path.split("/")[1], []).append(path)
        name = os.path.basename(path).removesuffix(".rt")
        if name in VAGUE:
            vague.setdefault(name, []).append(path)
    for crate, found in sorted(files.items()):
        if len(found) > CRATE_FILES:
            yield f"{crate} has {len(found)} files of code, more than {CRATE_FILES}"
    for name, found in sorted(vague.items()):
        if len(found) > 1:
            yield f"{name}.rt is {len(found)} files: {' '.join(found)}"


def long_files():
    for path in sorted(glob.glob("crates/*/src/**/*.rt", recursive=True) + glob.glob(f"{PROGRAMS}/*/src/**/*.rs", recursive=True)):
        lines = text_of(path).count("\n")
        if lines > FILE_LINES:
            yield f"{path} has {lines} lines, more than {FILE_LINES}"


def long_readme():
    size = os.path.getsize("README.md")
    if size > README_OCTETS:
        yield f"README.md has {size} octets, more than {README_OCTETS}"
    for number, line in enumerate(text_of("README.md").split("\n"), 1):
        if len(line) > COLUMNS:
            yield f"README.md line {number} has {len(line)} letters, more than {COLUMNS}"


def more_lists():
    """The kit takes each file of this name for a list of crates, wherever it stands."""
    for path in glob.glob("**/crates.txt", recursive=True):
        if path != "crates.txt" and "/out/" not in path:
            yield path


def stale_edits():
    """Bad edits that can't be made: a text that is taken out doesn't stand once in its file, with the pairs of texts before it exchanged."""
    for edit in sorted(glob.glob("crates/*/must-fail/*.edit") + glob.glob("crates/*/further-edits/*.edit")):
        path, old, texts = "", "", {}
        for line in text_of(edit).split("\n"):
            if line.startswith("file: "):
                path = os.path.join(edit.rpartition("/")[0], "..", line[6:].strip())
            elif line.startswith("old: "):
                old = line[5:]
            elif line.startswith("new:"):
                text = texts.get(path) or text_of(path)
                if text.count(old) != 1:
                    yield f"{edit}: '{old.strip()}' stands {text.count(old)} times"
                texts[path] = text.replace(old, line[4:].removeprefix(" "))


def stale_definitions():
    told = subprocess.run([sys.executable, "tools/definitions.py", "--check"], capture_output=True, text=True, check=False)
    if told.returncode:
        yield (told.stdout or told.stderr).strip().rpartition("\n")[2]


def verdict(what, faults):
    told = list(faults)
    print(f"not ok house: {what}: {'; '.join(told[:8])}" if told else f"ok house: {what}")
    return not told


LOOKS = {
    "links between documents lead somewhere": broken_links,
    "files that documents name are there": lacking_files,
    "each crate names only crates above it, and is told": sinking_crates,
    "what crates.txt names is used": idle_crates,
    "no other file is named crates.txt": more_lists,
    "each step of the three ways is there": lost_steps,
    "one rule stands once": repeated_rules,
    "a public type's name stands once": shared_names,
    "a crate is small, and its files are named for what they hold": large_crates,
    "a file of code is short": long_files,
    "each bad edit can be made": stale_edits,
    "the README is short": long_readme,
    "the list of definitions is that of specs/": stale_definitions,
}

sys.exit(0 if all([verdict(what, look()) for what, look in LOOKS.items()]) else 1)
