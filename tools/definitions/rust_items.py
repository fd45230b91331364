"""Reads the plain types and constants of a crate's src folder (.rt): its enums, and the values of its constants.

A value is what definitions compute with: a struct is a dict by the names of its fields (of a tuple struct `0`, `1` and so on),
a value of an enum a tuple of the variant's name and its parts, an array a list, a number an int."""

import glob
import os
import re
from typing import NamedTuple

from antt_syntax import Unsupported

TOKEN = re.compile(
    r"(?P<blank>\s+|//[^\n]*)|(?P<number>0x[0-9A-Fa-f_]+|0b[01_]+|[0-9][0-9_]*)(?:[iu](?:8|16|32|64|128|size))?"
    r"|(?P<name>[^\W\d]\w*)|(?P<text>\"(?:[^\"\\]|\\.)*\"|'(?:[^'\\]|\\.)')|(?P<mark>::|=>|->|\.\.=|\.\.|<<|>>|[^\w\s])"
)
CLOSING = {"(": ")", "[": "]", "{": "}"}


class Token(NamedTuple):
    kind: str  # number, name, text or mark
    text: str
    line: int


class Group(NamedTuple):
    """Tokens between brackets."""

    open: str
    trees: list
    line: int


class Variable(NamedTuple):
    """`$name:kind` of a macro's pattern, or `$name` of what it writes."""

    name: str
    kind: str
    line: int


class Repeat(NamedTuple):
    """`$( .. )` with `?`, `*` or `+`, and a mark between the rounds or None."""

    trees: list
    mark: str
    count: str
    line: int


def trees_of(text, file):
    """The token trees of a file."""
    stack, at, line = [("", [], 0)], 0, 1
    while at < len(text):
        match = TOKEN.match(text, at)
        if not match:
            raise Unsupported(file, line, f"{text[at]!r} is not read")
        kind, found = match.lastgroup, match.group(match.lastgroup)
        if kind != "blank" and found in CLOSING:
            stack.append((found, [], line))
        elif kind != "blank" and found in CLOSING.values():
            if CLOSING.get(stack[-1][0]) != found:
                raise Unsupported(file, line, f"{found!r} closes nothing")
            opened, trees, began = stack.pop()
            stack[-1][1].append(Group(opened, trees, began))
        elif kind != "blank":
            stack[-1][1].append(Token(kind, found, line))
        line += match.group().count("\n")
        at = match.end()
    if len(stack) != 1:
        raise Unsupported(file, stack[-1][2], f"{stack[-1][0]!r} is not closed")
    return stack[0][1]


def is_mark(tree, text):
    return isinstance(tree, Token) and tree.kind != "text" and tree.text == text


def is_name(tree):
    return isinstance(tree, Token) and tree.kind == "name"


def is_group(tree, opened):
    return isinstance(tree, Group) and tree.open == opened


def parts_of(trees, mark=","):
    """The parts between marks; an empty one behind the last mark is none."""
    parts = [[]]
    for tree in trees:
        if is_mark(tree, mark):
            parts.append([])
        else:
            parts[-1].append(tree)
    return parts if parts[-1] else parts[:-1]


class Constant(NamedTuple):
    """The expression of a constant, whose value is worked out when it is asked for."""

    trees: list
    line: int


class Variant(NamedTuple):
    """A variant, by its whole name, and the names of its parts."""

    name: str
    fields: list


class SourceFile:
    """What a file declares, and what it imports from the crate's other files."""

    def __init__(self, module, path, shown):
        self.module = module
        self.file = shown
        self.enums = {}
        self.constants = {}
        self.macros = {}
        self.uses = {}  # of a name here: the module and the name there
        with open(path, encoding="utf-8") as source:
            self.read_items(trees_of(source.read(), shown))

    def read_items(self, trees):
        at = 0
        while at < len(trees):
            at = self.read_item(trees, at)

    def read_item(self, trees, at):
        """Reads the item at a place, and gives the place behind it."""
        if is_mark(trees[at], "#"):
            return at + 2 + is_mark(trees[at + 1], "!")
        end = end_of_item(trees, at)
        item = trees[at:end]
        words = [tree.text if isinstance(tree, Token) else tree.open for tree in item]
        while words and words[0] in ("pub", "(", "ghost"):
            if words[0] == "ghost":
                return end
            words, item = words[1:], item[1:]
        read = {"enum": self.read_enum, "const": self.read_constant, "macro_rules": self.read_macro, "use": self.read_use}
        if words and words[0] in read:
            read[words[0]](item)
        return end

    def read_enum(self, item):
        name, body = item[1].text, item[-1]
        self.enums[name] = {}
        for part in parts_of(body.trees):
            variant = strip_attributes(part)
            fields = fields_of(variant[1]) if len(variant) > 1 and isinstance(variant[1], Group) else []
            self.enums[name][variant[0].text] = Variant(f"{self.module}.{name}.{variant[0].text}", fields)

    def read_constant(self, item):
        equals = next((i for i, tree in enumerate(item) if is_mark(tree, "=")), None)
        if equals is not None and is_name(item[1]):
            self.constants[item[1].text] = Constant(item[equals + 1 : -1], item[0].line)

    def read_macro(self, item):
        name, rules = item[2].text, []
        for rule in parts_of(item[3].trees, ";"):
            if len(rule) != 3 or not is_mark(rule[1], "=>"):
                raise Unsupported(self.file, item[0].line, f"a rule of the macro {name} is not read")
            rules.append((pattern_trees(rule[0].trees, self.file), pattern_trees(rule[2].trees, self.file)))
        self.macros[name] = rules

    def read_use(self, item):
        self.add_use([], item[1:-1])

    def add_use(self, path, trees):
        names = list(path)
        for at, tree in enumerate(trees):
            if is_group(tree, "{"):
                for part in parts_of(tree.trees):
                    self.add_use(names, part)
                return
            if is_mark(tree, "as"):
                self.keep_use(names, trees[at + 1].text)
                return
            if is_name(tree):
                names.append(tree.text)
        self.keep_use(names, names[-1])

    def keep_use(self, names, here):
        inside = names[1:] if names[0] in ("crate", "self", "super") else names
        self.uses[here] = (".".join(inside[:-1]), inside[-1])


def end_of_item(trees, at):
    """The place behind an item: a `;`, or braces that no `;` or `=` precedes."""
    has_value = False
    while at < len(trees):
        if is_mark(trees[at], ";"):
            return at + 1
        has_value = has_value or is_mark(trees[at], "=") or is_mark(trees[at], "use")
        if is_group(trees[at], "{") and not has_value:
            return at + 1
        at += 1
    return at


def strip_attributes(trees):
    while trees and is_mark(trees[0], "#"):
        trees = trees[2:]
    return trees


def fields_of(group):
    if group.open == "(":
        return [str(number) for number in range(len(parts_of(group.trees)))]
    fields = []
    for part in parts_of(group.trees):
        names = [tree.text for tree in strip_attributes(part) if is_name(tree) and tree.text != "pub"]
        fields.append(names[0])
    return fields


def pattern_trees(trees, file):
    """The trees of one side of a macro's rule, with its variables and repeated parts."""
    found, at = [], 0
    while at < len(trees):
        tree = trees[at]
        if is_mark(tree, "$"):
            one, at = dollar_at(trees, at + 1, file)
            found.append(one)
            continue
        found.append(Group(tree.open, pattern_trees(tree.trees, file), tree.line) if isinstance(tree, Group) else tree)
        at += 1
    return found


def dollar_at(trees, at, file):
    tree = trees[at]
    if is_name(tree):
        if at + 2 < len(trees) and is_mark(trees[at + 1], ":") and is_name(trees[at + 2]):
            return Variable(tree.text, trees[at + 2].text, tree.line), at + 3
        return Variable(tree.text, None, tree.line), at + 1
    if not is_group(tree, "("):
        raise Unsupported(file, tree.line, "this part of a macro is not read")
    mark = None
    at += 1
    if not (isinstance(trees[at], Token) and trees[at].text in "?*+"):
        mark, at = trees[at].text, at + 1
    return Repeat(pattern_trees(tree.trees, file), mark, trees[at].text, tree.line), at + 1


# Macros.


def matched(pattern, trees):
    """What the variables of a pattern stand for, where it fits all the trees; else None."""
    bindings, at = matched_front(pattern, trees, 0)
    return bindings if bindings is not None and at == len(trees) else None


def matched_front(pattern, trees, at):
    """The same for the trees from a place on, with the place behind those that fit."""
    bindings = {}
    for number, part in enumerate(pattern):
        if isinstance(part, Repeat):
            found, at = matched_rounds(part, trees, at)
        else:
            following = pattern[number + 1 : number + 2]
            found, at = matched_one(part, trees, at, following)
        if found is None:
            return None, at
        bindings.update(found)
    return bindings, at


def matched_one(part, trees, at, following):
    if isinstance(part, Variable) and part.kind == "expr":
        end = at
        while end < len(trees) and not (isinstance(trees[end], Token) and trees[end].text in (",", ";", "=>")):
            end += 1
        return ({part.name: trees[at:end]} if end > at else None), end
    if at >= len(trees):
        return None, at
    tree = trees[at]
    if isinstance(part, Variable):
        fits = {"ident": is_name(tree), "tt": True, "literal": is_literal(tree)}
        return ({part.name: [tree]} if fits.get(part.kind) else None), at + 1
    if isinstance(part, Group):
        inside = matched(part.trees, tree.trees) if is_group(tree, part.open) else None
        return inside, at + 1
    return ({} if isinstance(tree, Token) and tree.text == part.text else None), at + 1


def is_literal(tree):
    return isinstance(tree, Token) and (tree.kind in ("number", "text") or tree.text in ("true", "false"))


def matched_rounds(part, trees, at):
    rounds = []
    while True:
        start = at
        if rounds and part.mark is not None:
            if at >= len(trees) or not is_mark(trees[at], part.mark):
                break
            start = at + 1
        found, end = matched_front(part.trees, trees, start)
        if found is None or end == at:
            break
        rounds.append(found)
        at = end
        if part.count == "?":
            break
    if part.count == "+" and not rounds:
        return None, at
    return {name: [one[name] for one in rounds] for name in variables_of(part.trees)}, at


def variables_of(trees):
    names = []
    for tree in trees:
        if isinstance(tree, Variable):
            names.append(tree.name)
        elif isinstance(tree, (Group, Repeat)):
            names += variables_of(tree.trees)
    return names


def written(trees, bindings):
    """What a macro writes."""
    found = []
    for tree in trees:
        if isinstance(tree, Variable):
            found += bindings[tree.name]
        elif isinstance(tree, Group):
            found.append(Group(tree.open, written(tree.trees, bindings), tree.line))
        elif isinstance(tree, Repeat):
            found += written_rounds(tree, bindings)
        else:
            found.append(tree)
    return found


def written_rounds(tree, bindings):
    found = []
    names = [name for name in variables_of(tree.trees) if name in bindings]
    for number in range(max((len(bindings[name]) for name in names), default=0)):
        if number and tree.mark is not None:
            found.append(Token("mark", tree.mark, tree.line))
        found += written(tree.trees, {**bindings, **{name: bindings[name][number] for name in names}})
    return found


# Values.


class Sources:
    """The files of a src folder, by module."""

    def __init__(self, folder):
        self.files = {}
        self.values = {}
        for path in sorted(glob.glob(os.path.join(folder, "**", "*.rt"), recursive=True)):
            inside = os.path.relpath(path, folder)[: -len(".rt")]
            module = inside.replace(os.sep, ".").removesuffix(".mod")
            self.files[module] = SourceFile(module, path, os.path.join("src", inside + ".rt"))

    def enum(self, module, name):
        return self.files[module].enums.get(name) if module in self.files else None

    def constant(self, module, name):
        """The value of a constant."""
        if (module, name) not in self.values:
            file = self.files.get(module)
            if file is None or name not in file.constants:
                raise Unsupported(f"src/{module}.rt", 1, f"there is no constant {name}")
            constant = file.constants[name]
            self.values[module, name] = Evaluation(self, file, constant.line).whole(constant.trees)
        return self.values[module, name]

    def home_of(self, file, name, kind):
        """The file and the name there of what a name stands for: itself, or what is imported under it."""
        if name in getattr(file, kind):
            return file, name
        module, there = file.uses.get(name, (None, None))
        target = self.files.get(module)
        if target is not None and there in getattr(target, kind):
            return target, there
        for other in self.files.values():  # a name that a root file offers again
            if module == "" and there in getattr(other, kind):
                return other, there
        return None, None


class Evaluation:
    """The value of the expression of a constant."""

    def __init__(self, sources, file, line):
        self.sources = sources
        self.file = file
        self.line = line

    def refuse(self, what, tree=None):
        raise Unsupported(self.file.file, getattr(tree, "line", self.line), what)

    def whole(self, trees):
        value, at = self.value_at(trees, 0)
        if at != len(trees):
            self.refuse("this form of a constant is not read", trees[at])
        return value

    def value_at(self, trees, at):
        if at >= len(trees):
            self.refuse("a value is expected")
        tree = trees[at]
        if is_mark(tree, "&"):
            return self.value_at(trees, at + 1)
        if is_mark(tree, "-"):
            value, at = self.value_at(trees, at + 1)
            return -value, at
        if is_group(tree, "["):
            return self.array(tree), at + 1
        if is_group(tree, "("):
            return self.tuple(tree), at + 1
        if isinstance(tree, Token) and tree.kind == "number":
            return int(tree.text.replace("_", ""), 0), at + 1
        if is_name(tree) and tree.text in ("true", "false"):
            return tree.text == "true", at + 1
        if is_name(tree):
            return self.path_at(trees, at)
        return self.refuse("this form of a constant is not read", tree)

    def array(self, group):
        halves = parts_of(group.trees, ";")
        if len(halves) == 2:
            return [self.whole(halves[0])] * self.whole(halves[1])
        return [self.whole(part) for part in parts_of(group.trees)]

    def tuple(self, group):
        parts = parts_of(group.trees)
        if len(parts) == 1:
            return self.whole(parts[0])
        return {str(number): self.whole(part) for number, part in enumerate(parts)}

    def path_at(self, trees, at):
        path = [trees[at]]
        at += 1
        while at + 1 < len(trees) and is_mark(trees[at], "::"):
            path.append(trees[at + 1])
            at += 2
        following = trees[at] if at < len(trees) else None
        if is_mark(following, "!"):
            return self.macro(path[-1], trees[at + 1]), at + 2
        if is_group(following, "{") or is_group(following, "("):
            return self.built(path, following), at + 1
        return self.built(path, None), at

    def macro(self, name, group):
        home, there = self.sources.home_of(self.file, name.text, "macros")
        if home is None:
            self.refuse(f"there is no macro {name.text}", name)
        for pattern, body in home.macros[there]:
            bindings = matched(pattern, group.trees)
            if bindings is not None:
                return Evaluation(self.sources, self.file, name.line).whole(written(body, bindings))
        return self.refuse(f"no rule of the macro {name.text} fits", name)

    def built(self, path, group):
        """A variant, a struct or a constant, by its path, with what stands in brackets behind it."""
        variant = self.variant(path)
        if variant is not None:
            fields = self.fields(group)
            if set(fields) != set(variant.fields):
                self.refuse(f"{path[-1].text} has other fields", path[-1])
            return (variant.name, *(fields[name] for name in variant.fields))
        if group is not None:
            return self.fields(group)
        home, there = self.sources.home_of(self.module_of(path), path[-1].text, "constants")
        if home is None:
            self.refuse(f"there is no constant {path[-1].text}", path[-1])
        return self.sources.constant(home.module, there)

    def module_of(self, path):
        names = [part.text for part in path[:-1] if part.text not in ("crate", "self")]
        return self.sources.files.get(".".join(names), self.file) if names else self.file

    def variant(self, path):
        if path[-1].text in ("Some", "Ok", "Err"):
            return Variant(path[-1].text, ["0"])
        if path[-1].text == "None" and len(path) == 1:
            return Variant("None", [])
        if len(path) < 2:
            return None
        home, there = self.sources.home_of(self.module_of(path[:-1]), path[-2].text, "enums")
        return home.enums[there].get(path[-1].text) if home is not None else None

    def fields(self, group):
        if group is None:
            return {}
        if group.open == "(":
            return {str(number): self.whole(part) for number, part in enumerate(parts_of(group.trees))}
        fields = {}
        for part in parts_of(group.trees):
            if not is_name(part[0]) or len(part) > 1 and not is_mark(part[1], ":"):
                self.refuse("this form of a field is not read", part[0])
            fields[part[0].text] = self.whole(part[2:] if len(part) > 1 else part)
        return fields
