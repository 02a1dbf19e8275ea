#!/usr/bin/env python3
"""Brings this repository's own antt names to today's spelling: functions, lemmas, fields and constructors in
snake case, `′` as `'`.

usage: tools/respell.py [ROOT [RESPELLED]]      once, at the top of the repository, right after port.py

Names are collected where specs/ and the lemma files of proofs/ declare them, and turned wherever they stand: in .antt
files, in the clauses and ghost lines of src/, in must-fail edits, and between backticks in the pages. Two names that
would fall together: the definition takes the plain one, the lemma or local beside it the same with _law. Names that
rattle generates (goals, steps) and the names of src/ stay. The table of what was turned is written to RESPELLED."""
import collections
import glob
import re
import sys

TOKEN = r"[^\s(){}\[\];,.:λ«»⌜⌝\"`]+"
CAMEL = re.compile(r"(?<=[a-z0-9])([A-Z])")
# Names that stand two on a line, or in a λ or a `let`, where `declared` does not look.
MORE = ["inM", "modelSound", "topAt", "topHere", "new-kinds", "nothing-added", "modelRun", "one-live"]
# What port.py turned in one file and not in another: the path below crates/, the name that stands there, the one that
# is meant.
FIRST = [
    ("memory/specs/Meaning.antt", "field_own", "own_at"),
    ("world/proofs/Removing.antt", "kindAt", "kind_at"),
    ("world/proofs/mask/mask_at/Proof.antt", "kind_at", "kind-at"),
    ("world/proofs/component_set/remove_one/Proof.antt", "kind_at", "kind-at"),
]


def lemma_files(root):
    specs = glob.glob(root + "/crates/*/specs/**/*.antt", recursive=True)
    return sorted(specs + glob.glob(root + "/crates/*/proofs/*.antt"))


def declared(root):
    """name -> the list of (rank, file, line): rank 0 a definition of specs/, 1 a definition of camel case, 2 a field,
    3 a lemma, 4 a local one."""
    names = collections.defaultdict(list)
    for path in lemma_files(root):
        in_record = False
        for number, line in enumerate(open(path, encoding="utf-8"), 1):
            if re.match(r"\s*--", line):
                continue
            if re.match(r"(pub )?(record|data)\b", line):
                in_record = True
                continue
            if re.match(r"\S", line):
                in_record = False
            before = r"(?:abbrev |unfoldable |private )?(?:pub )?(?:ruleset )?(?:pub )?"
            top = re.match(before + "(" + TOKEN + r") :( |$)", line)
            low = re.match(r"\s+(?:abbrev |unfoldable )?(?:pub )?(" + TOKEN + r") :( |$)", line)
            if top:
                rank = 0 if "/specs/" in path else 1 if CAMEL.search(top.group(1)) else 3
                names[top.group(1)].append((rank, path, number))
            elif low:
                names[low.group(1)].append((2 if in_record else 4, path, number))
    return names


def snake(name):
    name = name.replace("′", "'").replace("-", "_")
    if re.match(r"[a-z]", name):
        name = CAMEL.sub(lambda m: "_" + m.group(1).lower(), name)
        name = re.sub(r"_[A-Z](?=[a-z])", lambda m: m.group(0).lower(), name)
    return name


def table(root):
    names = declared(root)
    for name in MORE:
        names.setdefault(name, [(4, "", 0)])
    wanted = collections.defaultdict(list)
    for name, places in names.items():
        wanted[snake(name)].append((min(places)[0], 0 if name == snake(name) else 1, name))
    turned = {}
    for new, olds in wanted.items():
        for at, (_, _, old) in enumerate(sorted(olds)):
            target = new if at == 0 else new + "_law" if at == 1 else new + "_law%d" % at
            if target != old:
                turned[old] = target
    clash = set(turned.values()) & (set(names) - set(turned))
    if clash:
        sys.exit("respell: these would fall together with a name that stays: " + " ".join(sorted(clash)))
    return turned


LIBRARY_USE = re.compile(r"^[ \t]*(?:pub )?(?:ghost )?use ([A-Za-z_'.]+?)\.\{([^}]*)\}", flags=re.M)


def turn(text, turned, own=()):
    """The text with its names turned. In a file that brings in a library's name, that name stays, and the group that
    brings it in does."""
    stay, groups = set(), []
    for use in LIBRARY_USE.finditer(text):
        parts = use.group(1).split(".")
        if own and not (parts[0] == "Rattle" and len(parts) > 1 and parts[1] in own):
            groups.append(use.span())
            for item in use.group(2).split(","):
                words = item.split()
                if words and "as" not in words:
                    stay.add(words[0])

    def one(match):
        name = match.group(0)
        if name in stay or any(a <= match.start() < b for a, b in groups):
            return name
        return turned.get(name, name)

    return re.sub(TOKEN, one, text)


def turn_proof(text, turned, crates):
    """A proof of one function: its own answers keep their names, which go by the goals; f-spec is f_spec."""
    own = set(re.findall(r"^(?:pub )?(?:abbrev )?(" + TOKEN + r") :", text, flags=re.M))

    def step(match):
        # a step of a path goes by the function that is called, and not by the lemma that is spelled like it
        name = match.group(1)
        return name.replace("-", "_") if turned.get(name, "").endswith("_law") else name

    text = re.sub(r"(?<=\.)(" + TOKEN + ")", step, text)
    text = turn(text, {old: new for old, new in turned.items() if old not in own}, crates)
    for name in own:
        if name.endswith("-spec"):
            alone = r"(?<![^\s(){}\[\];,.:λ])" + re.escape(name) + r"(?![^\s(){}\[\];,.:λ])"
            text = re.sub(alone, name.replace("-", "_"), text)
    return text


def main():
    root = sys.argv[1] if len(sys.argv) > 1 else "."
    for name, old, new in FIRST:
        path = root + "/crates/" + name
        text = open(path, encoding="utf-8").read()
        open(path, "w", encoding="utf-8").write(turn(text, {old: new}))
    turned = table(root)
    lemmas = set(lemma_files(root))
    crates = {path.split("/")[-2] for path in glob.glob(root + "/crates/*/")}
    changed = 0
    pages = glob.glob(root + "/*.md") + glob.glob(root + "/docs/**/*.md", recursive=True)
    for path in sorted(glob.glob(root + "/crates/*/**/*", recursive=True)) + pages:
        if "/out/" in path or not path.endswith((".antt", ".rt", ".edit", ".md")):
            continue
        old = open(path, encoding="utf-8").read()
        if path.endswith(".md"):
            new = re.sub(r"`[^`\n]*`", lambda m: turn(m.group(0), turned), old)
        elif "/proofs/" in path and path.endswith(".antt") and path not in lemmas:
            new = turn_proof(old, turned, crates)
        else:
            new = turn(old, turned, crates)
        if new != old:
            open(path, "w", encoding="utf-8").write(new)
            changed += 1
    if len(sys.argv) > 2:
        with open(sys.argv[2], "w", encoding="utf-8") as out:
            for old in sorted(turned):
                out.write("%s %s\n" % (old, turned[old]))
    print("respell: %d names, %d files" % (len(turned), changed))


if __name__ == "__main__":
    main()
