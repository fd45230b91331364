"""Reads a file of definitions (.antt): what it imports, and the clauses of each definition as trees.

Only the part of the language is read in which definitions compute. Relations and records of facts (those whose type ends in
`Type`) say something and compute nothing, so their clauses are never asked for."""

import re
from typing import NamedTuple


class Unsupported(Exception):
    """A form that is not translated. Its text names the file and the line."""

    def __init__(self, file, line, what):
        super().__init__(f"{file}:{line}: {what}")


class Token(NamedTuple):
    text: str
    line: int
    column: int
    first: bool  # of its line


# Trees of expressions.


class Number(NamedTuple):
    value: int


class Text(NamedTuple):
    value: str


class Name(NamedTuple):
    text: str
    line: int


class Field(NamedTuple):
    base: object
    name: str
    line: int


class Apply(NamedTuple):
    function: object
    arguments: list


class Operator(NamedTuple):
    symbol: str
    left: object
    right: object
    line: int


class Lambda(NamedTuple):
    names: list
    body: object


class Let(NamedTuple):
    name: str
    value: object
    body: object


class If(NamedTuple):
    test: object
    yes: object
    no: object


class Elim(NamedTuple):
    subject: object
    cases: list  # of a pattern and an expression
    line: int


class Record(NamedTuple):
    base: object  # None, or the record of which fields are replaced
    fields: list  # of a name and an expression; those of a tuple are named 0, 1, ..


# Trees of patterns.


class NamePattern(NamedTuple):
    text: str
    line: int


class NumberPattern(NamedTuple):
    value: int


class ConsPattern(NamedTuple):
    head: object
    tail: object


class PairPattern(NamedTuple):
    left: object
    right: object


class ConstructorPattern(NamedTuple):
    text: str
    arguments: list
    line: int


# Binding strength and side of the operators of the standard library. A file may declare others.
OPERATORS = {
    "^": (75, "right"),
    "*": (70, "left"), "/": (70, "left"), "%": (70, "left"), "*ℤ": (70, "left"),
    "+": (65, "left"), "-": (65, "left"), "+ℤ": (65, "left"), "-ℤ": (65, "left"),
    "∷": (60, "right"), "++": (60, "right"),
    "==": (40, "left"),
    "&&": (35, "right"),
    "||": (30, "right"),
}

STRING = re.compile(r'"((?:[^"\\]|\\.)*)"')
WORD = re.compile(r"[^\s(){};,.\[\]\"]+")
NUMBER = re.compile(r"0x[0-9A-Fa-f_]+|[0-9][0-9_]*")
ENDS = {")", "}", ";", ",", "]", "then", "else", "in", "=", ".", "←", "→", ":", "×", "|", "↦"}
SPECIAL = {"λ", "let", "if", "do", "elim"}
MODIFIERS = {"unfoldable", "abbrev", "pub"}


def tokens_of(text, file):
    """The tokens of a text. A dot with no blank around it selects a field, and is the token `.f`."""
    found = []
    for number, line in enumerate(text.split("\n"), 1):
        at, first = 0, True
        while at < len(line):
            if line[at] == " ":
                at += 1
                continue
            if line.startswith("--", at):
                break
            token, size = token_at(line, at, number, file)
            found.append(Token(token, number, at, first))
            at, first = at + size, False
    return found


def token_at(line, at, number, file):
    if line.startswith("[]", at):
        return "[]", 2
    if line[at] in "(){};,[]":
        return line[at], 1
    if line[at] == ".":
        return (".f" if line[at + 1 : at + 2].strip() else "."), 1
    for pattern in (STRING, WORD):
        match = pattern.match(line, at)
        if match:
            return match.group(), match.end() - at
    raise Unsupported(file, number, f"{line[at]!r} is not read")


class Reader:
    """Reads one item of a file. A line that begins at the fence or left of it ends what is read."""

    def __init__(self, tokens, file, operators):
        self.tokens = tokens
        self.file = file
        self.operators = operators
        self.at = 0
        self.fences = [-1]

    def peek(self):
        if self.at >= len(self.tokens):
            return None
        token = self.tokens[self.at]
        return None if token.first and token.column <= self.fences[-1] else token.text

    def line(self):
        return self.tokens[min(self.at, len(self.tokens) - 1)].line

    def refuse(self, what):
        raise Unsupported(self.file, self.line(), what)

    def next(self):
        if self.at >= len(self.tokens):
            self.refuse("the text ends within a form")
        self.at += 1
        return self.tokens[self.at - 1].text

    def expect(self, text):
        if self.peek() != text:
            self.refuse(f"{text!r} is expected here, not {self.peek()!r}")
        self.at += 1

    def end(self):
        if self.at < len(self.tokens):
            self.refuse(f"nothing is expected here, not {self.tokens[self.at].text!r}")

    # Expressions.

    def expression(self, least=0):
        left = self.application()
        while True:
            symbol = self.peek()
            if symbol not in self.operators or self.operators[symbol][0] < least:
                return left
            strength, side = self.operators[symbol]
            line = self.line()
            self.at += 1
            left = Operator(symbol, left, self.expression(strength + (side == "left")), line)

    def application(self):
        if self.peek() in SPECIAL:
            return self.special()
        function, arguments = self.atom(), []
        while True:
            text = self.peek()
            if text is None or text in ENDS or text in self.operators:
                break
            if text == "{":
                self.skip_implicit()
            elif text in SPECIAL:
                arguments.append(self.special())
                break
            else:
                arguments.append(self.atom())
        return Apply(function, arguments) if arguments else function

    def skip_implicit(self):
        while self.next() != "}":
            pass

    def special(self):
        read = {"λ": self.lambda_, "let": self.let, "if": self.if_, "do": self.do, "elim": self.elim}
        return read[self.next()]()

    def lambda_(self):
        names = []
        while self.peek() != ".":
            names += self.binder()
        self.expect(".")
        return Lambda(names, self.expression())

    def binder(self):
        """A name, or names with their type as `(x y : T)`."""
        if self.peek() != "(":
            return [self.name()]
        self.next()
        names = []
        while self.peek_inside() != ":":
            names.append(self.name())
        depth = 1
        while depth:
            text = self.next()
            depth += (text == "(") - (text == ")")
        return names

    def name(self):
        text = self.next()
        if text in ENDS or not WORD.fullmatch(text):
            self.at -= 1
            self.refuse(f"a name is expected here, not {text!r}")
        return text

    def let(self):
        name = self.name()
        while self.peek() != "=":
            self.next()
        self.expect("=")
        value = self.expression()
        self.expect("in")
        return Let(name, value, self.expression())

    def if_(self):
        test = self.expression()
        self.expect("then")
        yes = self.expression()
        self.expect("else")
        return If(test, yes, self.expression())

    def do(self):
        return self.steps(self.tokens[self.at].column)

    def steps(self, column):
        """The lines of a `do`, which begin at a column: `x ← e` is `e >>= λ x. ..`."""
        if self.tokens[self.at + 1 : self.at + 2] and self.tokens[self.at + 1].text == "←":
            line, name = self.line(), self.next()
            self.next()
            value = self.fenced(column)
            return Operator(">>=", value, Lambda([name], self.steps(column)), line)
        return self.fenced(column - 1)

    def fenced(self, column):
        self.fences.append(column)
        value = self.expression()
        self.fences.pop()
        return value

    def elim(self):
        line, subject = self.line(), self.atom()
        self.expect("[")
        cases = []
        while True:
            pattern = self.pattern_until("↦")
            self.expect("↦")
            cases.append((pattern, self.fenced(-1)))
            if self.peek() != "|":
                break
            self.expect("|")
        self.expect("]")
        return Elim(subject, cases, line)

    def atom(self):
        line, text = self.line(), self.next()
        if text == "(":
            tree = self.in_parentheses()
        elif text == "record":
            tree = self.record()
        elif NUMBER.fullmatch(text):
            tree = Number(int(text.replace("_", ""), 0))
        elif text[0] == '"':
            tree = Text(STRING.fullmatch(text).group(1).encode().decode("unicode_escape"))
        elif text in ENDS or text in "{[":
            self.at -= 1
            self.refuse(f"an expression is expected here, not {text!r}")
        else:
            tree = Name(text, line)
        while self.at < len(self.tokens) and self.tokens[self.at].text == ".f":
            self.at += 1
            tree = Field(tree, self.next(), line)
        return tree

    def in_parentheses(self):
        items = [self.fenced(-1)]
        while self.peek_inside() == ",":
            self.next()
            if self.peek_inside() == ")":
                break
            items.append(self.fenced(-1))
        self.close(")")
        return items[0] if len(items) == 1 else Record(None, [(str(i), x) for i, x in enumerate(items)])

    def record(self):
        base = None if self.peek() == "{" else self.atom()
        self.close("{")
        fields = []
        while self.peek_inside() != "}":
            name = self.next()
            self.close("=")
            fields.append((name, self.fenced(-1)))
            if self.peek_inside() == ";":
                self.next()
        self.close("}")
        return Record(base, fields)

    def peek_inside(self):
        """The next token, where brackets are open and no fence holds."""
        return self.tokens[self.at].text if self.at < len(self.tokens) else None

    def close(self, text):
        if self.peek_inside() != text:
            self.refuse(f"{text!r} is expected here, not {self.peek_inside()!r}")
        self.at += 1

    # Patterns.

    def pattern_until(self, *ends):
        """The pattern of all parts up to an end: one, a constructor with its arguments, `x ∷ xs`, or a pair."""
        parts = []
        while self.peek_inside() not in ends:
            if self.peek_inside() is None:
                self.refuse("the text ends within a pattern")
            if self.peek_inside() in ("∷", ","):
                symbol = self.next()
                rest = self.pattern_until(*ends)
                front = self.whole(parts)
                return ConsPattern(front, rest) if symbol == "∷" else PairPattern(front, rest)
            parts.append(self.pattern())
        return self.whole(parts)

    def whole(self, parts):
        if len(parts) == 1:
            return parts[0]
        if not parts or not isinstance(parts[0], NamePattern):
            self.refuse("this pattern is not read")
        return ConstructorPattern(parts[0].text, parts[1:], parts[0].line)

    def pattern(self):
        line, text = self.line(), self.next()
        if text == "(":
            pattern = self.pattern_until(")")
            self.close(")")
            return pattern
        if NUMBER.fullmatch(text):
            return NumberPattern(int(text.replace("_", ""), 0))
        while self.peek_inside() == ".f":
            self.at += 1
            text += "." + self.next()
        return NamePattern(text, line)


class Clause(NamedTuple):
    patterns: list
    body: object


class Definition:
    """A definition, whose clauses are read when they are asked for."""

    def __init__(self, name, file, line, operators):
        self.name = name
        self.file = file
        self.line = line
        self.operators = operators
        self.items = []
        self.is_relation = False
        self.takes_numbers = False  # one list of numbers, and nothing else
        self.kept = None

    def clauses(self):
        if self.kept is None:
            self.kept = [self.clause(tokens) for tokens in self.items]
        return self.kept

    def clause(self, tokens):
        reader = Reader(tokens, self.file, self.operators)
        if is_infix(self.name):
            patterns = [reader.pattern()]
            reader.next()
        else:
            patterns = []
            reader.next()
        while reader.peek_inside() != "=":
            patterns.append(reader.pattern())
        reader.close("=")
        body = reader.expression()
        reader.end()
        return Clause(patterns, body)

    def arity(self):
        return len(self.clauses()[0].patterns) if self.items else None


def is_infix(name):
    return name.startswith("◌") and name.endswith("◌") and len(name) > 2


class Import(NamedTuple):
    path: list  # of the module or type, in its parts
    names: list  # of the name there and the name here
    alias: str  # of the whole, or None


class DefinitionFile:
    """The imports, definitions and constructors of a file."""

    def __init__(self, path, shown):
        self.file = shown
        self.imports = []
        self.definitions = {}
        self.constructors = {}  # by name: its type and the number of its arguments
        self.operators = dict(OPERATORS)
        with open(path, encoding="utf-8") as source:
            tokens = tokens_of(source.read(), shown)
        for item in items_of(tokens):
            self.take(item)

    def take(self, item):
        words = [token.text for token in item[:4]]
        while words and words[0] in MODIFIERS:
            words.pop(0)
        start = next((i for i, token in enumerate(item) if token.text not in MODIFIERS), len(item))
        if not words or words[0] in ("mod", "record", "unfolding", "ruleset"):
            return
        if words[0] == "use":
            self.take_import(item[start + 1 :])
        elif words[0] in ("infixl", "infixr", "infix"):
            self.take_operator(item[start:])
        elif words[0] == "data":
            self.take_data(item[start + 1 :])
        elif words[1:2] == [":"]:
            self.take_signature(item[start:])
        else:
            self.take_clause(item)

    def take_import(self, tokens):
        texts = [token.text for token in tokens if token.text != ".f"]
        if "{" in texts:
            path, listed = texts[: texts.index("{")], texts[texts.index("{") + 1 : -1]
            names, alias = [names_of_import(part) for part in split_at(listed, ",")], None
        elif "as" in texts:
            path, names, alias = texts[: texts.index("as")], [], texts[-1]
        else:
            path, names, alias = texts[:-1], [(texts[-1], texts[-1])], None
        self.imports.append(Import(path, names, alias))

    def take_operator(self, tokens):
        side = {"infixl": "left", "infixr": "right", "infix": "none"}[tokens[0].text]
        for token in tokens[2:]:
            self.operators[token.text.strip("◌")] = (int(tokens[1].text), side)

    def take_data(self, tokens):
        """A constructor is a line `Name : (a b : T) (c : U) → Type`; its arguments are the names in parentheses."""
        type_name = tokens[0].text
        for at, token in enumerate(tokens):
            if token.first and tokens[at + 1].text == ":":
                self.constructors[token.text] = (type_name, count_arguments(tokens[at + 2 :]))

    def take_signature(self, tokens):
        definition = self.named(tokens[0])
        texts = [token.text for token in tokens[2:]]
        definition.is_relation = texts[-2:] == ["Type", "0"]
        definition.takes_numbers = texts[:3] == ["List", "ℕ", "→"] and texts.count("→") == 1

    def take_clause(self, item):
        infix = next((t for t in item[1:] if f"◌{t.text}◌" in self.definitions), None)
        if infix is not None and item[0].text not in self.definitions:
            self.definitions[f"◌{infix.text}◌"].items.append(item)
        else:
            self.named(item[0]).items.append(item)

    def named(self, token):
        if token.text not in self.definitions:
            self.definitions[token.text] = Definition(token.text, self.file, token.line, self.operators)
        return self.definitions[token.text]


def items_of(tokens):
    """The tokens in items, each of which begins at the left edge. A closing bracket there belongs to the item before."""
    items = []
    for token in tokens:
        if token.first and token.column == 0 and token.text not in (")", "}", "]"):
            items.append([])
        items[-1].append(token)
    return items


def split_at(texts, mark):
    parts = [[]]
    for text in texts:
        if text == mark:
            parts.append([])
        else:
            parts[-1].append(text)
    return [part for part in parts if part]


def names_of_import(part):
    return (part[0], part[2]) if part[1:2] == ["as"] else (part[0], part[0])


def count_arguments(tokens):
    """The names in the parentheses that stand in front of a type."""
    count, at = 0, 0
    while at < len(tokens) and tokens[at].text == "(":
        depth, names = 1, True
        at += 1
        while depth:
            text = tokens[at].text
            depth += (text == "(") - (text == ")")
            names = names and text != ":"
            count += names
            at += 1
        if at < len(tokens) and tokens[at].text == "→":
            at += 1
    return count
