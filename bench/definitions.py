#!/usr/bin/env python3
"""Counts what a reader has to believe: the definitions that stand in others, down from some of them, with their lines and their files.

    bench/definitions.py run_headline:Text:HasHeadline [CRATE:MODULE:NAME ..]
    bench/definitions.py --list CRATE:MODULE:NAME ..
    bench/definitions.py --files CRATE:MODULE:NAME ..

A definition's lines are those that it stands in, but for comments and blank lines. What is imported is followed, also through a module's short name. Words
of std, and the types and constants of programs, are not counted. With --list each definition has a line of its own, and with --files each file: its lines that
count, and its definitions with theirs."""
import os
import re
import sys

CRATES = os.path.join(os.path.dirname(os.path.abspath(__file__)), os.pardir, "crates")
BEGIN = re.compile(r" *(?:(?:abbrev|unfoldable)(?: pub)?|(?:pub )?(?:record|data)) ([^\s{]+)")
IMPORT = re.compile(r"^ *(?:pub )?use Rattle\.(?:\w+\.specs\.)*(\w+)\.specs\.([\w.]+?)(?:\.\{(.*)\}| as (\w+))$")
WORD = re.compile(r"[A-Za-z_][\w']*(?:\.[A-Za-z_][\w']*)*")


class Module:
    """A file of definitions: their lines by name, the constructors of its types, and what its imports name."""

    def __init__(self, key, lines):
        self.key, self.bodies, self.makers, self.names, self.modules, self.handed_on = key, {}, {}, {}, {}, set()
        name = None
        for line in lines:
            found, begun = IMPORT.match(line), BEGIN.match(line)
            if found:
                self.take(found, line)
            elif begun and not line.lstrip().startswith("--"):
                name = begun[1]
                self.bodies[name] = [line]
            elif re.match(r" *(?:module|--|infix)", line) or not line.strip():
                # What comes next at the left begins anew; a comment or a blank line stands within a record as well.
                name = None if re.match(r" *module", line) else name
            elif name:
                self.bodies[name].append(line)
        for name, body in self.bodies.items():
            if re.match(r" *(?:pub )?data ", body[0]):
                self.makers.update((found[1], name) for found in map(re.compile(r" +([A-Z]\w*) :").match, body[1:]) if found)

    def take(self, found, line):
        crate, module, names, short = found.groups()
        if short:
            self.modules[short] = crate, module
        for one in filter(None, map(str.strip, (names or "").split(","))):
            name, _, other = one.partition(" as ")
            self.names[other or name] = crate, module, name
            if line.lstrip().startswith("pub "):
                self.handed_on.add(other or name)

    def named(self, word):
        """What a word names: a definition, here or elsewhere, or nothing that is counted."""
        first, *more = word.split(".")
        if more and first in self.modules:
            return (*self.modules[first], more[0])
        return self.names.get(first) or (*self.key, first)


def modules():
    found = {}
    for crate in os.listdir(CRATES):
        top = f"{CRATES}/{crate}/specs"
        for folder, _, names in os.walk(top):
            for name in names:
                if name.endswith(".antt") and name != "Lib.antt":
                    module = os.path.relpath(f"{folder}/{name}", top)[:-5].replace(os.sep, ".")
                    with open(f"{folder}/{name}", encoding="utf-8") as file:
                        found[crate, module] = Module((crate, module), file.read().splitlines())
    return found


ALL = modules()


def definition(crate, module, name):
    """Where a name is defined: in that module, by a constructor of one of its types, or where the module has it from."""
    at = ALL.get((crate, module))
    if not at:
        return None
    name = at.makers.get(name, name)
    if name in at.bodies:
        return crate, module, name
    return definition(*at.names[name]) if name in at.handed_on else None


def reached(roots):
    seen, left = set(), list(roots)
    while left:
        one = left.pop()
        if one not in seen:
            seen.add(one)
            at = ALL[one[:2]]
            words = WORD.findall(re.sub(r"--.*", "", "\n".join(at.bodies[one[2]])))
            left.extend(filter(None, (definition(*at.named(word)) for word in set(words))))
    return seen


def lines_of(one):
    return len(ALL[one[:2]].bodies[one[2]])


def count(names):
    """How many definitions, lines and files stand in these, as CRATE:MODULE:NAME."""
    found = reached(tuple(name.split(":")) for name in names)
    return len(found), sum(map(lines_of, found)), len({one[:2] for one in found})


def by_file(names):
    """The files in which these stand, with the definitions of each: those with the most lines first."""
    files = {}
    for one in reached(tuple(name.split(":")) for name in names):
        files.setdefault(one[:2], []).append(one)
    return sorted(files.items(), key=lambda file: (-sum(map(lines_of, file[1])), file[0]))


if __name__ == "__main__":
    words = sys.argv[1:]
    if words[:1] == ["--list"]:
        for one in sorted(reached(tuple(name.split(":")) for name in words[1:])):
            print(lines_of(one), ":".join(one))
    elif words[:1] == ["--files"]:
        for file, found in by_file(words[1:]):
            each = sorted(found, key=lambda one: (-lines_of(one), one))
            print(sum(map(lines_of, found)), ":".join(file), " ".join(f"{one[2]}:{lines_of(one)}" for one in each))
    elif words:
        print("{} definitions, {} lines, {} files".format(*count(words)))
    else:
        sys.exit(__doc__)
