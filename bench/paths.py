#!/usr/bin/env python3
"""Counts the paths of the graph of crates from a crate down, with the one of no step: `rt` walks all of them each time that it asks what lies below the crate.

    bench/paths.py [CRATE]
    bench/paths.py --each
    bench/paths.py --lists

Without a crate it is `opennf_calls`. With --each there is a line for each crate, and one for their sum. With --lists it tells what is wrong in the lists of
crates.txt, and its status is 1 where anything is: a crate of this tree that is listed and not named, or named and not listed. Libraries of the kit aren't looked at."""
import os
import re
import sys

TOP = os.path.join(os.path.dirname(os.path.abspath(__file__)), os.pardir)
ROW = re.compile(r"(\w+)[^:#]*:([^#]*)")


def read(path):
    with open(path, encoding="utf-8") as file:
        return file.read()


def graph():
    """Each crate with those that it lists."""
    listed = {found[1]: found[2].split() for found in map(ROW.match, read(f"{TOP}/crates.txt").splitlines()) if found}
    return {crate: [below for below in uses if below in listed] for crate, uses in listed.items()}


def paths(listed):
    """How many paths begin at each crate."""
    found = {}

    def count(crate):
        if crate not in found:
            found[crate] = 1 + sum(map(count, listed[crate]))
        return found[crate]

    for crate in listed:
        count(crate)
    return found


def named(crate):
    """What a crate's code, definitions, proofs and wrong bodies name."""
    found = set()
    for folder, folders, names in os.walk(f"{TOP}/crates/{crate}"):
        folders[:] = [name for name in folders if name not in ("out", "data")]
        for name in names:
            if name.endswith(".antt"):
                found.update(re.findall(r"\bRattle\.(\w+)", re.sub(r"--.*", "", read(f"{folder}/{name}"))))
            elif name.endswith((".rt", ".edit")):
                code = re.sub(r"//.*", "", read(f"{folder}/{name}"))
                found.update(re.findall(r"\bRattle\.(\w+)|(?<![\w:.])(\w+)::|^ *(?:pub )?use (\w+)", code, re.MULTILINE))
    return {name for one in found for name in ((one,) if isinstance(one, str) else one)}


def wrong_lists(listed):
    for crate, uses in listed.items():
        names = named(crate) & (set(listed) - {crate})
        yield from (f"{crate} lists {below} and doesn't name it" for below in uses if below not in names)
        yield from (f"{crate} names {below} and doesn't list it" for below in sorted(names - set(uses)))


def main(words):
    listed = graph()
    if words == ["--lists"]:
        wrong = list(wrong_lists(listed))
        print("\n".join(wrong) or "each list has what its crate names")
        return bool(wrong)
    found = paths(listed)
    if words == ["--each"]:
        for crate, count in found.items():
            print(count, crate)
        print(sum(found.values()), "in all")
        return 0
    crate = words[0] if words else "opennf_calls"
    if len(words) > 1 or crate not in found:
        sys.exit(__doc__)
    print(f"{found[crate]} paths")
    return 0


if __name__ == "__main__":
    sys.exit(main(sys.argv[1:]))
