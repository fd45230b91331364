"""Translates definitions to Python, those that are asked for and what they rest on.

A definition becomes a function of as many arguments as its clauses have patterns; where it is passed on or has fewer
arguments, a chain of functions of one argument each. A record is a dict by its fields, a pair a record with fields 0 and 1,
and a value of an enum or a `data` a tuple of the constructor's whole name and its arguments. What is bound to a name is worked
out at once: the definitions say what a value is, and no part of them runs forever."""

import glob
import keyword
import os
import re
import sys

import antt_syntax as antt
import rust_items
import standard
from antt_syntax import Unsupported

DECLARED = "declared"
LIBRARIES = ("std", "core")  # every other crate that is imported from is the model itself
sys.setrecursionlimit(1_000_000)


class Constructor:
    """A variant of an enum, or a constructor of a `data`, by its whole name."""

    def __init__(self, name, count):
        self.name = name
        self.count = count


class Model:
    """The definitions of a crate, its folder's `specs` and `src`."""

    def __init__(self, folder):
        self.folder = folder
        self.sources = rust_items.Sources(os.path.join(folder, "src"))
        self.modules = {}
        specs = os.path.join(folder, "specs")
        for path in sorted(glob.glob(os.path.join(specs, "**", "*.antt"), recursive=True)):
            inside = os.path.relpath(path, specs)[: -len(".antt")]
            module = inside.replace(os.sep, ".")
            self.modules[module] = Module(self, module, antt.DefinitionFile(path, os.path.join("specs", inside + ".antt")))
        if not self.modules:
            raise SystemExit(f"{folder}/specs has no definitions")
        for module in self.modules.values():
            module.take_operators()

    def module_of(self, word):
        """The module that defines a word which stands in one module alone, or in the one that is named before it."""
        place, _, name = word.rpartition(".")
        homes = [module for module in self.modules.values() if name in module.file.definitions and place in ("", module.name)]
        if len(homes) != 1:
            raise SystemExit(f"{self.folder}: {len(homes)} modules define {word}, which a run asks for")
        return homes[0]

    def variants(self, module, enum):
        found = self.sources.enum(module, enum)
        if found is None:
            return {}
        return {name: Constructor(variant.name, len(variant.fields)) for name, variant in found.items()}


class Module:
    """A file of definitions, and what its names stand for."""

    def __init__(self, model, name, file):
        self.model = model
        self.name = name
        self.file = file
        self.aliases = {}  # of a name for all the variants of an enum: those by name
        self.imported = {}
        for each in file.imports:
            self.take_import(each)

    def take_import(self, each):
        if len(each.path) < 4 and each.alias is None:
            return
        _, crate, _, *path = each.path
        if crate in LIBRARIES:
            for there, here in each.names:
                self.imported[here] = ("standard", there)
        elif path[0] == DECLARED:
            self.take_declared(path[1:], each)
        else:
            for there, here in each.names:
                self.imported[here] = ("definition", ".".join(path), there)

    def take_operators(self):
        """An operator of another module binds here as it does there."""
        for here, meaning in self.imported.items():
            if antt.is_infix(here) and meaning[0] == "definition":
                symbol = here.strip("◌")
                self.file.operators[symbol] = self.model.modules[meaning[1]].file.operators[symbol]

    def take_declared(self, path, each):
        if path[-1] == "TheConstants":
            for there, here in each.names:
                self.imported[here] = ("constant", ".".join(path[:-1]), there)
        elif path[-1] == "TheVariants":
            variants = self.model.variants(".".join(path[:-2]), path[-2])
            if each.alias is not None:
                self.aliases[each.alias] = variants
            for there, here in each.names:
                self.imported[here] = ("constructor", variants.get(there))

    def meaning(self, name):
        """What a name stands for that no pattern and no binder brought in: its kind, and the thing itself."""
        if "." in name:
            alias, variant = name.split(".", 1)
            return ("constructor", self.aliases.get(alias, {}).get(variant))
        if name in self.file.definitions:
            return ("definition", self, self.file.definitions[name])
        if name in self.file.constructors:
            kind, count = self.file.constructors[name]
            return ("constructor", Constructor(f"{self.name}.{kind}.{name}", count))
        found = self.imported.get(name)
        if found is not None and found[0] == "definition":
            other = self.model.modules.get(found[1])
            return other.meaning(found[2]) if other is not None else None
        if found is not None and found[0] != "standard":
            return found
        word = found[1] if found is not None else name
        if word in ("Some", "Ok", "Err", "None"):
            return ("constructor", Constructor(word, int(word != "None")))
        return ("standard", word) if word in standard.WORDS else None


def python_name(text):
    """A name of Python for a name of a definition."""
    plain = re.sub(r"[^A-Za-z0-9_]", lambda match: f"_u{ord(match.group()):x}_", text)
    return plain + "_" if keyword.iskeyword(plain) else plain


def is_positive(tree):
    """Whether it is a number above 0, or a power of one."""
    if isinstance(tree, antt.Operator) and tree.symbol == "^":
        return is_positive(tree.left)
    return isinstance(tree, antt.Number) and tree.value > 0


class Program:
    """The translated definitions, by module and name, as they are asked for."""

    def __init__(self, model):
        self.model = model
        self.space = dict(standard.NAMES)
        for word, (count, meaning) in standard.WORDS.items():
            self.space[f"std__{python_name(word)}"] = meaning
        self.done = set()
        self.waiting = []

    def word(self, name):
        """The definition that is named so in one module of the model, as a function; `MODULE.WORD` names the module too."""
        module = self.model.module_of(name)
        function = self.ask(module, module.file.definitions[name.rpartition(".")[2]])
        while self.waiting:
            self.translate(*self.waiting.pop())
        return self.space[function]

    def ask(self, module, definition):
        """The name of a definition's function. It is translated before anything runs."""
        name = f"{python_name(module.name)}__{python_name(definition.name)}"
        if name not in self.done:
            self.done.add(name)
            self.waiting.append((module, definition, name))
        return name

    def constant(self, module, name):
        """The name of a constant of the source files."""
        key = f"const__{python_name(module)}__{name}"
        if key not in self.space:
            self.space[key] = self.model.sources.constant(module, name)
        return key

    def translate(self, module, definition, name):
        text = FunctionText(self, module, definition).text(name)
        exec(compile(text, f"<{module.file.file} {definition.name}>", "exec"), self.space)


class FunctionText:
    """The text of the Python function of a definition."""

    def __init__(self, program, module, definition):
        self.program = program
        self.module = module
        self.definition = definition
        self.used = {}

    def refuse(self, line, what):
        raise Unsupported(self.module.file.file, line, what)

    def text(self, name):
        clauses = self.definition.clauses()
        if not clauses or self.definition.is_relation:
            self.refuse(self.definition.line, f"{self.definition.name} has nothing that can be worked out")
        count = len(clauses[0].patterns)
        arguments = [f"a{number}" for number in range(count)]
        lines = [f"def {name}({', '.join(arguments)}):"]
        if not count or self.definition.takes_numbers:
            lines.insert(0, "@kept_by_list" if count else "@kept")
        for clause in clauses:
            lines += self.clause(clause, arguments)
        where = f"{self.module.file.file}:{self.definition.line}: {self.definition.name}"
        return "\n".join(lines + [f"    raise NoClause({where!r})"])

    def clause(self, clause, arguments):
        self.used = {}
        tests, names = [], []
        for pattern, argument in zip(clause.patterns, arguments):
            self.match(pattern, argument, tests, names)
        scope, lines, indent = {}, [], "    "
        if tests:
            lines.append(f"    if {' and '.join(tests)}:")
            indent = "        "
        for name, value in names:
            scope[name] = self.fresh(name)
            lines.append(f"{indent}{scope[name]} = {value}")
        return lines + self.statements(clause.body, scope, indent)

    def fresh(self, name):
        """A variable for a name; one that hides another gets a number, as functions made before it still see the other."""
        self.used[name] = self.used.get(name, 0) + 1
        return f"v_{python_name(name)}" + (f"__{self.used[name]}" if self.used[name] > 1 else "")

    # Patterns: the tests that a value has to pass, and the names of its parts.

    def match(self, pattern, value, tests, names):
        if isinstance(pattern, antt.NumberPattern):
            tests.append(f"{value} == {pattern.value}")
        elif isinstance(pattern, antt.ConsPattern):
            tests.append(f"len({value}) != 0")
            self.match(pattern.head, f"{value}[0]", tests, names)
            self.match(pattern.tail, f"drop(1, {value})", tests, names)
        elif isinstance(pattern, antt.PairPattern):
            self.match(pattern.left, f"{value}['0']", tests, names)
            self.match(pattern.right, f"{value}['1']", tests, names)
        elif isinstance(pattern, antt.ConstructorPattern):
            self.match_constructor(pattern, value, tests, names)
        else:
            self.match_name(pattern, value, tests, names)

    def match_name(self, pattern, value, tests, names):
        fixed = {"[]": f"len({value}) == 0", "zero": f"{value} == 0", "true": value, "false": f"not {value}"}
        if pattern.text in fixed:
            tests.append(fixed[pattern.text])
            return
        meaning = self.module.meaning(pattern.text)
        if "." in pattern.text or meaning is not None and meaning[0] == "constructor":
            self.test_constructor(pattern, meaning, 0, value, tests)
        elif pattern.text != "_":
            names.append((pattern.text, value))

    def match_constructor(self, pattern, value, tests, names):
        whole = {"suc": ("{} > 0", "({} - 1)"), "pos": ("{} >= 0", "{}"), "negsuc": ("{} < 0", "(-1 - {})")}
        if pattern.text in whole:
            test, part = whole[pattern.text]
            tests.append(test.format(value))
            self.match(pattern.arguments[0], part.format(value), tests, names)
            return
        self.test_constructor(pattern, self.module.meaning(pattern.text), len(pattern.arguments), value, tests)
        for number, argument in enumerate(pattern.arguments, 1):
            self.match(argument, f"{value}[{number}]", tests, names)

    def test_constructor(self, pattern, meaning, count, value, tests):
        if meaning is None or meaning[0] != "constructor" or meaning[1] is None:
            self.refuse(pattern.line, f"{pattern.text} is no constructor that is known")
        if meaning[1].count != count:
            self.refuse(pattern.line, f"{pattern.text} has {meaning[1].count} arguments")
        tests.append(f"{value}[0] == {meaning[1].name!r}")

    # Expressions. The last thing that a function does is written as statements, so that names stand in lines of their own.

    def statements(self, tree, scope, indent):
        if isinstance(tree, antt.Let):
            value = self.value(tree.value, scope)
            inner = {**scope, tree.name: self.fresh(tree.name)}
            return [f"{indent}{inner[tree.name]} = {value}"] + self.statements(tree.body, inner, indent)
        if isinstance(tree, antt.If):
            yes = self.statements(tree.yes, scope, indent + "    ")
            return [f"{indent}if {self.value(tree.test, scope)}:"] + yes + self.statements(tree.no, scope, indent)
        if isinstance(tree, antt.Elim):
            return self.elim(tree, scope, indent)
        return [f"{indent}return {self.value(tree, scope)}"]

    def elim(self, tree, scope, indent):
        subject = self.fresh("subject")
        lines = [f"{indent}{subject} = {self.value(tree.subject, scope)}"]
        for pattern, body in tree.cases:
            tests, names, inner = [], [], dict(scope)
            self.match(pattern, subject, tests, names)
            lines.append(f"{indent}if {' and '.join(tests) or 'True'}:")
            for name, value in names:
                inner[name] = self.fresh(name)
                lines.append(f"{indent}    {inner[name]} = {value}")
            lines += self.statements(body, inner, indent + "    ")
        return lines

    def value(self, tree, scope):
        return getattr(self, "of_" + type(tree).__name__.lower())(tree, scope)

    def of_number(self, tree, scope):
        return str(tree.value)

    def of_text(self, tree, scope):
        return repr(tree.value)

    def of_name(self, tree, scope):
        return self.applied(tree, [], scope)

    def of_apply(self, tree, scope):
        return self.applied(tree.function, [self.value(argument, scope) for argument in tree.arguments], scope)

    def of_field(self, tree, scope):
        if self.is_alias(tree, scope):
            return self.applied(tree, [], scope)
        return f"{self.value(tree.base, scope)}[{tree.name!r}]"

    def is_alias(self, tree, scope):
        """Whether it is a variant by a name for all of them, as `op.Pause`."""
        base = tree.base if isinstance(tree, antt.Field) else None
        return isinstance(base, antt.Name) and base.text not in scope and base.text in self.module.aliases

    def of_lambda(self, tree, scope):
        inner, heads = dict(scope), []
        for name in tree.names:
            inner[name] = self.fresh(name)
            heads.append(f"lambda {inner[name]}: ")
        return f"({''.join(heads)}{self.value(tree.body, inner)})"

    def of_let(self, tree, scope):
        inner = {**scope, tree.name: self.fresh(tree.name)}
        return f"(lambda {inner[tree.name]}: {self.value(tree.body, inner)})({self.value(tree.value, scope)})"

    def of_if(self, tree, scope):
        test, yes, no = (self.value(part, scope) for part in tree)
        return f"({yes} if {test} else {no})"

    def of_elim(self, tree, scope):
        return self.refuse(tree.line, "`elim` is read only where it is the whole of a clause")

    def of_record(self, tree, scope):
        fields = ", ".join(f"{name!r}: {self.value(value, scope)}" for name, value in tree.fields)
        return f"{{**{self.value(tree.base, scope)}, {fields}}}" if tree.base is not None else f"{{{fields}}}"

    def of_operator(self, tree, scope):
        if tree.symbol == "∷":
            return self.list(tree, scope)
        left, right = self.value(tree.left, scope), self.value(tree.right, scope)
        meaning = self.module.meaning(f"◌{tree.symbol}◌")
        if meaning is not None and meaning[0] == "definition":
            return f"{self.program.ask(meaning[1], meaning[2])}({left}, {right})"
        if tree.symbol not in standard.OPERATORS:
            self.refuse(tree.line, f"the operator {tree.symbol} is not translated")
        if tree.symbol in standard.DIVISIONS and is_positive(tree.right):
            return standard.DIVISIONS[tree.symbol].format(left, right)
        return standard.OPERATORS[tree.symbol].format(left, right)

    def list(self, tree, scope):
        """`a ∷ b ∷ []` as one list."""
        items = []
        while isinstance(tree, antt.Operator) and tree.symbol == "∷":
            items.append(self.value(tree.left, scope))
            tree = tree.right
        front = f"[{', '.join(items)}]"
        if isinstance(tree, antt.Name) and tree.text == "[]":
            return front
        return f"joined({front}, {self.value(tree, scope)})"

    # Applications.

    def applied(self, function, arguments, scope):
        """A function and the texts of its arguments."""
        if isinstance(function, antt.Name) and function.text in scope:
            return self.one_by_one(scope[function.text], arguments)
        if isinstance(function, antt.Name) and function.text == "[]":
            return "[]"
        if isinstance(function, antt.Name):
            return self.named(function.text, function.line, arguments)
        if self.is_alias(function, scope):
            return self.named(f"{function.base.text}.{function.name}", function.line, arguments)
        return self.one_by_one(self.value(function, scope), arguments)

    def one_by_one(self, function, arguments):
        return function + "".join(f"({argument})" for argument in arguments)

    def named(self, name, line, arguments):
        meaning = self.module.meaning(name)
        if meaning is None or meaning[1] is None:
            self.refuse(line, f"{name} is not known")
        kind = meaning[0]
        if kind == "constant":
            return self.one_by_one(self.program.constant(meaning[1], meaning[2]), arguments)
        if kind == "constructor":
            return self.given(meaning[1].count, lambda given: self.tuple(meaning[1].name, given), arguments)
        if kind == "standard":
            return self.standard(meaning[1], arguments)
        count = meaning[2].arity()
        if count is None:
            self.refuse(line, f"{name} has nothing that can be worked out")
        called = self.program.ask(meaning[1], meaning[2])
        return self.given(count, lambda given: f"{called}({', '.join(given)})", arguments)

    def standard(self, word, arguments):
        count = standard.WORDS[word][0]
        if word in standard.WRITTEN and len(arguments) == count:
            return standard.WRITTEN[word].format(*arguments)
        called = f"std__{python_name(word)}"
        if count == 0:
            return self.one_by_one(called, arguments)
        return self.given(count, lambda given: f"{called}({', '.join(given)})", arguments)

    def tuple(self, name, arguments):
        return f"({name!r},{''.join(f' {argument},' for argument in arguments)})"

    def given(self, count, call, arguments):
        """A call with the arguments that are there; for those that are missing it is a function."""
        if len(arguments) >= count:
            return self.one_by_one(call(arguments[:count]), arguments[count:])
        missing = [f"m{number}" for number in range(len(arguments), count)]
        held = [f"h{number}" for number in range(len(arguments))]
        heads = "".join(f"lambda {name}: " for name in missing)
        function = f"{heads}{call(held + missing)}"
        if not arguments:
            return f"({function})"
        return f"(lambda {', '.join(held)}: {function})({', '.join(arguments)})"
