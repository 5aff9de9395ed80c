"""Reads an operator's script: a part of the model in model.py."""
import re
from typing import NamedTuple, Optional

from functions import Filter, FilterFault, read_number

MOST_BYTES, MOST_LINES = 1_048_576, 1000
MOST_POINT = 2**32 - 1


class ScriptFault(Exception):
    """The first line that breaks a rule, and the rule; line 0 is the whole file."""

    def __init__(self, line, rule):
        super().__init__(line, rule)
        self.line = line
        self.rule = rule


class BrokenRule(Exception):
    """A line breaks this rule."""


class Command(NamedTuple):
    number: int
    verb: str  # move, copy or share
    names: list
    flows: Optional[Filter]  # None is a copy of the state of all flows
    how: Optional[str] = None  # of a move: order or lossfree


class Script(NamedTuple):
    routes: list  # of (filter, instance)
    lines: list  # of (point, command), where a settle is no command


EMPTY = Script([], [])


def is_name(text):
    return re.fullmatch("[a-z0-9]{1,16}", text) is not None


def read_script(content, function, instances):
    """The script; the instances are names."""
    if len(content) > MOST_BYTES:
        raise ScriptFault(0, "too many")
    script = Script([], [])
    for number, line in enumerate(content.split(b"\n"), 1):
        try:
            read_line(script, line.removesuffix(b"\r"), function, instances)
        except BrokenRule as broken:
            raise ScriptFault(number, str(broken)) from None
    return script


def read_line(script, line, function, instances):
    try:
        text = line.decode("utf-8")
    except UnicodeDecodeError:
        raise BrokenRule("not utf8") from None
    match [word for word in re.split("[ \t]", text) if word]:
        case []:
            pass
        case [first, *_] if first.startswith("#"):
            pass
        case ["route", flows, name]:
            if script.lines:
                raise BrokenRule("order")
            if name not in instances:
                raise BrokenRule("name")
            add_line(script.routes, (read_filter(flows, function), instances.index(name)))
        case ["at", point, *words] if (form := form_of(words)) and read_number(point, 0, MOST_POINT) is not None:
            point = int(point)
            if script.lines and point < script.lines[-1][0]:
                raise BrokenRule("order")
            number = 1 + sum(command is not None for _, command in script.lines)
            add_line(script.lines, (point, read_command(number, *form, function)))
        case _:
            raise BrokenRule("word")


def add_line(lines, line):
    if len(lines) == MOST_LINES:
        raise BrokenRule("too many")
    lines.append(line)


def form_of(words):
    """What stands after a point as a verb, names, a filter or None, and how a move is made; None where it has no form."""
    match words:
        case ["move", source, destination, flows, ("order" | "lossfree") as how]:
            return "move", [source, destination], flows, how
        case ["copy", source, destination, what]:
            return "copy", [source, destination], None if what == "all" else what, None
        case ["share", members, flows, "strict"] if "," in members:
            return "share", members.split(","), flows, None
        case ["settle"]:
            return "settle", [], None, None
    return None


def read_command(number, verb, names, flows, how, function):
    if verb == "settle":
        return None
    if not all(map(is_name, names)):
        raise BrokenRule("name")
    if len(set(names)) < len(names):
        raise BrokenRule("same instance")
    return Command(number, verb, names, None if flows is None else read_filter(flows, function), how)


def read_filter(text, function):
    try:
        flows = Filter(text)
    except FilterFault:
        raise BrokenRule("filter") from None
    if function.splits(flows):
        raise BrokenRule("splits unit")
    return flows
