"""The words of Rattle's standard library that definitions use, as Python. A function of several arguments takes them at once;
one that is passed on as a value takes them one by one. Lists are lists or `PagedBytes`, options and results are tuples
`('Some', x)`, `('None',)`, `('Ok', x)` and `('Err', e)`, and integers with a sign are numbers."""

from paged_bytes import PAGE, SHORT, PagedBytes, joined


class NoClause(Exception):
    """A definition was asked for arguments that none of its clauses takes."""


def kept(function):
    """A definition without arguments is worked out once."""
    values = []

    def value():
        if not values:
            values.append(function())
        return values[0]

    return value


def kept_by_list(function):
    """What a definition gives for a short list of numbers, as for the bytes of an instruction, is worked out once."""
    values = {}

    def value(items):
        if isinstance(items, PagedBytes) or len(items) > SHORT:
            return function(items)
        key = tuple(items)
        if key not in values:
            values[key] = function(items)
        return values[key]

    return value


# Numbers: a difference below 0 is 0, and a quotient by 0 is 0.


def difference(a, b):
    return a - b if a >= b else 0


def quotient(a, b):
    return a // b if b else 0


def remainder(a, b):
    return a % b if b else a


def signed_quotient(a, b):
    size = abs(a) // abs(b) if b else 0
    return size if (a < 0) == (b < 0) else -size


def signed_remainder(a, b):
    size = abs(a) % abs(b) if b else abs(a)
    return -size if a < 0 else size


# Lists.


def take(count, items):
    return items.taken(count) if isinstance(items, PagedBytes) else items[:count]


def drop(count, items):
    return items.dropped(count) if isinstance(items, PagedBytes) else items[count:]


def replicate(count, item):
    return PagedBytes.zeros(count) if count >= PAGE and item == 0 else [item] * count


def slice_index_or(items, index, other):
    return items[index] if index < len(items) else other


def slice_get(items, index):
    return ("Some", items[index]) if index < len(items) else ("None",)


def slice_set(items, index, item):
    return items[:index] + [item] + items[index + 1 :] if index < len(items) else items


def slice_split(test, items):
    parts = [[]]
    for item in items:
        if test(item):
            parts.append([])
        else:
            parts[-1].append(item)
    return parts


def bytes_eq(left, right):
    return list(left) == list(right)


def digits(base, upper, number):
    """The digits of a number as ASCII bytes."""
    glyphs = b"0123456789ABCDEF" if upper else b"0123456789abcdef"
    found = []
    while True:
        number, digit = divmod(number, base)
        found.insert(0, glyphs[digit])
        if number == 0:
            return found


# Options.


def option_map(function, option):
    return ("Some", function(option[1])) if option[0] == "Some" else option


def option_or(option, other):
    return option if option[0] == "Some" else other


# The words, with their numbers of arguments. A width of integers is its number of bytes.
WORDS = {
    "true": (0, True),
    "false": (0, False),
    "tt": (0, ()),
    "zero": (0, 0),
    "suc": (1, lambda n: n + 1),
    "pos": (1, lambda n: n),
    "negsuc": (1, lambda n: -1 - n),
    "neg_ℤ": (1, lambda n: -n),
    "not": (1, lambda a: not a),
    "nat_lt": (2, lambda a, b: a < b),
    "nat_le": (2, lambda a, b: a <= b),
    "int_lt": (2, lambda a, b: a < b),
    "int_le": (2, lambda a, b: a <= b),
    "int_div": (2, signed_quotient),
    "int_rem": (2, signed_remainder),
    "min": (2, min),
    "max": (2, max),
    "bit_and": (2, lambda a, b: a & b),
    "bit_or": (2, lambda a, b: a | b),
    "bit_xor": (2, lambda a, b: a ^ b),
    "count_ones": (1, lambda n: n.bit_count()),
    "w8": (0, 1),
    "w16": (0, 2),
    "w32": (0, 4),
    "w64": (0, 8),
    "byte_len": (1, lambda width: width),
    "from_le_bytes": (2, lambda width, items: int.from_bytes(bytes(items[:width]), "little")),
    "to_le_bytes": (2, lambda width, n: list((n % (1 << 8 * width)).to_bytes(width, "little"))),
    "length": (1, len),
    "take": (2, take),
    "drop": (2, drop),
    "replicate": (2, replicate),
    "range_with_len": (2, lambda first, count: list(range(first, first + count))),
    "slice_index": (2, lambda items, index: slice_index_or(items, index, 0)),
    "slice_index_or": (3, slice_index_or),
    "slice_get": (2, slice_get),
    "slice_set": (3, slice_set),
    "slice_split": (2, slice_split),
    "map": (2, lambda function, items: [function(item) for item in items]),
    "flat_map": (2, lambda function, items: [one for item in items for one in function(item)]),
    "filter": (2, lambda test, items: [item for item in items if test(item)]),
    "list_all": (2, lambda test, items: all(test(item) for item in items)),
    "list_any": (2, lambda test, items: any(test(item) for item in items)),
    "beq": (2, lambda a, b: a == b),
    "is_some": (1, lambda option: option[0] == "Some"),
    "is_none": (1, lambda option: option[0] == "None"),
    "option_or": (2, option_or),
    "option_map": (2, option_map),
    "option_to_list": (1, lambda option: list(option[1:])),
    "codes": (1, lambda text: list(text.encode())),
    "bytes_eq": (2, bytes_eq),
    "digits": (3, digits),
    "decimal": (1, lambda number: digits(10, False, number)),
}

# Words that Python has as an operator, as text with a place for each argument.
WRITTEN = {
    "not": "(not {})",
    "nat_lt": "({} < {})",
    "nat_le": "({} <= {})",
    "bit_and": "({} & {})",
    "bit_or": "({} | {})",
    "bit_xor": "({} ^ {})",
    "length": "len({})",
}

# By a number that is not 0.
DIVISIONS = {"/": "({} // {})", "%": "({} % {})"}

# The operators, as text with a place for each side.
OPERATORS = {
    "+": "({} + {})",
    "*": "({} * {})",
    "^": "({} ** {})",
    "-": "difference({}, {})",
    "/": "quotient({}, {})",
    "%": "remainder({}, {})",
    "+ℤ": "({} + {})",
    "-ℤ": "({} - {})",
    "*ℤ": "({} * {})",
    "==": "({} == {})",
    "&&": "({} and {})",
    "||": "({} or {})",
    "∷": "joined([{}], {})",
    "++": "joined({}, {})",
}

NAMES = {
    "difference": difference,
    "drop": drop,
    "joined": joined,
    "kept": kept,
    "kept_by_list": kept_by_list,
    "quotient": quotient,
    "remainder": remainder,
    "NoClause": NoClause,
}
