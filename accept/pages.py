"""What pages name: links and anchors, crates, files, and items of crates in code. Each has to be there.

What can't be told for sure is passed over: a pattern, a name in capitals that stands for others, a word that only looks like a
name.
"""

import functools
import glob
import os
import re

PAGES = ["README.md", "docs/*.md", "examples/README.md", "examples/*/README.md", "bench/README.md", "crates/*/CALLING.md", "crates/*/README.md"]

FENCE = re.compile(r"^```(\w*)\n(.*?)^```$", re.M | re.S)
TICKED = re.compile(r"`([^`]+)`")
BOLD = re.compile(r"\*\*([^*]+)\*\*")
LINK = re.compile(r"\[[^\]]*\]\(([^()\s]+)\)")
HEADING = re.compile(r"^#+ +(.*?) *$", re.M)

# A name in ticks, and what it has to be the name of. A path is a file's, or, up to its first blank, that of a command.
CRATE = re.compile(r"(?:flow|example)_[a-z_]+|bevelrose(?:_c)?")
PATH = re.compile(r"((?:\.ci|crates|docs|bin|bench|examples)/[\w./-]+)(?: .*)?")
SOURCE = re.compile(r"[\w/]+\.(?:rt|antt)")
ITEM = re.compile(r"((?:flow|example)_[a-z_]+|bevelrose(?:_c)?)::(\w+)(?:\(.*)?")

# A word of a path that stands for others, as in crates/NAME/audit/.
STANDS_FOR_OTHERS = re.compile(r"(?:^|/)[A-Z]+(?:/|$)")

# In a block of Rattle, what is used of a crate, and what is used of a crate's definitions.
USE = re.compile(r"^use ((?:flow|example)_[a-z_]+|bevelrose(?:_c)?)::(?:(\w+)|\{([^}]*)\});", re.M)
GHOST_USE = re.compile(r"^(?:ghost )?use Rattle\.((?:flow|example)_[a-z_]+|bevelrose(?:_c)?)\.specs\.([\w.]+)\.\{([^}]*)\}", re.M)

# A contract that a caller's page shows, by the function's name.
SHOWN_FUNCTION = re.compile(r"^fn (?:\w+::)?(\w+)", re.M)

ITEM_WORDS = "fn|struct|enum|trait|type|const|static|mod|macro"


class Tree:
    """The files in which names are looked up."""

    def __init__(self, top):
        self.top = top
        self.crates = self.listed_crates()

    def listed_crates(self):
        """The crates that crates.txt lists."""
        with open(os.path.join(self.top, "crates.txt"), encoding="utf-8") as lines:
            bare = [line.split("#")[0] for line in lines]
        return {line.split(":")[0].split()[0] for line in bare if ":" in line}

    def crates_in(self, text):
        return set(CRATE.findall(text)) & self.crates

    def has(self, path):
        return os.path.exists(os.path.join(self.top, path))

    @functools.lru_cache(None)
    def files(self, crate):
        """The files of a crate, each with a slash before its path."""
        top = os.path.join(self.top, "crates", crate)
        return [os.path.join(folder, name)[len(top) :] for folder, _, names in os.walk(top) for name in names]

    def has_in_some(self, path, crates):
        """Whether a file stands in one of these crates, in any of its folders."""
        return any(file.endswith(f"/{path}") for crate in crates for file in self.files(crate))

    @functools.lru_cache(None)
    def text(self, path):
        with open(os.path.join(self.top, path), encoding="utf-8") as file:
            return file.read()

    @functools.lru_cache(None)
    def code(self, crate):
        """All code of a crate."""
        files = sorted(glob.glob(os.path.join(self.top, "crates", crate, "src", "**", "*.rt"), recursive=True))
        return "\n".join(self.text(os.path.relpath(file, self.top)) for file in files)

    @functools.lru_cache(None)
    def anchors(self, path):
        """The anchors that the headings of a page get."""
        seen, found = {}, set()
        for heading in HEADING.findall(FENCE.sub("", self.text(path))):
            words = re.sub(r"\[([^\]]*)\]\([^)]*\)", r"\1", heading).lower()
            anchor = re.sub(r"[^\w\- ]", "", words).replace(" ", "-")
            count = seen.get(anchor, 0)
            seen[anchor] = count + 1
            found.add(f"{anchor}-{count}" if count else anchor)
        return found

    @functools.lru_cache(None)
    def offers(self, crate, name):
        """Whether the crate has a public item of this name, also one that it hands on from another crate."""
        code = self.code(crate)
        if re.search(rf"\bpub [^;{{}}=]*\b(?:{ITEM_WORDS}) {name}\b", code):
            return True
        return any(re.search(rf"\b{name}\b", used) for used in re.findall(r"\bpub use ([^;]*);", code))


def pages_of(top):
    found = []
    for pattern in PAGES:
        found += sorted(glob.glob(os.path.join(top, pattern)))
    return [os.path.relpath(path, top) for path in found]


def faults_of(tree, page):
    """What the page names that isn't there, a line each."""
    text = tree.text(page)
    prose = FENCE.sub("", text)
    faults = list(broken_links(tree, page, TICKED.sub("", prose)))
    about = set()
    for block in re.split(r"\n\n|\n(?=[-|] )", prose):
        # what follows a heading, or crates in bold type, is of these
        if block.startswith(("#", "**")):
            about = tree.crates_in(" ".join(BOLD.findall(block)))
        faults += missing_names(tree, page, block, about)
    for language, code in FENCE.findall(text):
        faults += missing_uses(tree, code)
        if language == "text":
            faults += missing_functions(tree, code, meant(tree, page, text, set()))
    if page == "README.md":
        faults += other_example(tree, text)
    return faults


def broken_links(tree, page, prose):
    for target in LINK.findall(prose):
        if "://" in target or target.startswith("mailto:"):
            continue
        path, _, anchor = target.partition("#")
        path = os.path.normpath(os.path.join(os.path.dirname(page), path)) if path else page
        if not tree.has(path):
            yield f"the link {target} leads to no file"
        elif anchor and path.endswith(".md") and anchor not in tree.anchors(path):
            yield f"the link {target} leads to no heading"


def missing_names(tree, page, block, about):
    """The names in the ticks of a paragraph, an item of a list or a row of a table, which is about these crates. Prose goes from
    one crate to the next, so there a file that is named without its folder may stand in any."""
    faults = []
    crates, is_row = meant(tree, page, block, about), block.startswith("|")
    for name in (" ".join(ticked.split()) for ticked in TICKED.findall(block)):
        item, path = ITEM.fullmatch(name), PATH.fullmatch(name)
        if CRATE.fullmatch(name) and name not in tree.crates:
            faults.append(f"there is no crate {name}")
        elif path and not STANDS_FOR_OTHERS.search(path.group(1)) and not tree.has(path.group(1).rstrip(".")):
            faults.append(f"there is no {path.group(1)}")
        elif not path and SOURCE.fullmatch(name) and not tree.has_in_some(name, crates if "/" in name or is_row else tree.crates):
            faults.append(f"there is no {name} in any crate that is meant")
        elif item and item.group(1) in tree.crates and not tree.offers(item.group(1), item.group(2)):
            faults.append(f"{item.group(1)} has no public {item.group(2)}")
    return faults


def meant(tree, page, block, about):
    """The crates in which something may stand that is named without its crate: that of the page, those that are named beside it,
    those that the passage is about; or, where there are none, any."""
    own = re.match(r"crates/(\w+)/", page)
    return tree.crates_in(block) | about | ({own.group(1)} if own else set()) or tree.crates


def missing_uses(tree, code):
    """What a block of code uses of crates that isn't there."""
    faults = []
    for crate, one, several in USE.findall(code):
        for name in re.findall(r"\w+", one or re.sub(r"\bas \w+", "", several)):
            if crate in tree.crates and name != "self" and not tree.offers(crate, name):
                faults.append(f"{crate} has no public {name}")
    for crate, place, names in GHOST_USE.findall(code):
        path = f"crates/{crate}/specs/{place.replace('.', '/')}.antt"
        if place.startswith("declared.") or crate not in tree.crates:
            continue
        if not tree.has(path):
            faults.append(f"there is no {path}")
            continue
        words = set(re.findall(r"[^\s(){},:]+", tree.text(path)))
        faults += [f"{path} has no {name}" for name in re.split(r"[,\s]+", names) if name and name not in words]
    return faults


def missing_functions(tree, code, crates):
    """The functions whose contracts are shown that none of these crates has."""
    for name in SHOWN_FUNCTION.findall(code):
        if not any(re.search(rf"\bfn {name}\b", tree.code(crate)) for crate in crates):
            yield f"there is no function {name}"


def other_example(tree, text):
    """The program in README.md is that of the example, whole: but that is a module, whose `main` is not private, and its root has the tactics."""
    shown = re.search(r"```rust\n(.*?)```", text, re.S)
    path = "crates/examples/src/chain.rt"
    if shown is None or not tree.has(path) or shown.group(1) != program_of(tree.text(path)):
        return [f"the program is not that of {path}"]
    return []


def program_of(module):
    """The program that is an example's module."""
    return module.replace("\n\n", "\n#![tactic(auto)]\n\n", 1).replace("\npub(crate) fn main(", "\nfn main(")


def check(part, top):
    """Counts each page as one test."""
    tree = Tree(top)
    for page in pages_of(top):
        faults = list(faults_of(tree, page))
        part.count(not faults, page, faults)
