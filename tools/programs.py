"""Closed programs of ground types, made at random, each with the value that it stands for.

A value is worked out in Python while the program is made, so the normal form of a program is known without a normaliser: it is
the literal of its value, and so is its JSON value. Expressions are those of expressions.py.
"""

NATURAL, BOOL, TEXT, INTEGER = "Natural", "Bool", "Text", "Integer"
GROUND = [NATURAL, BOOL, TEXT, ("List", NATURAL), ("Optional", NATURAL), ("record", (("a", NATURAL), ("b", BOOL)))]
NAMES = ["x", "y", "f", "_", "a"]
MOST_NATURAL = 2 ** 128 - 1
# What a JSON number may be.
MOST_NUMBER, LEAST_NUMBER = 2 ** 64 - 1, -2 ** 63


def builtin(name):
    return ("builtin", name)


def call(name, *arguments):
    e = builtin(name)
    for argument in arguments:
        e = ("app", e, argument)
    return e


def type_of(t):
    """The expression of a type."""
    if isinstance(t, str):
        return builtin(t)
    if t[0] == "record":
        return ("record type", [(label, type_of(u)) for label, u in t[1]])
    if t[0] == "union":
        return ("union", [(label, None if u is None else type_of(u)) for label, u in t[1]])
    if t[0] == "function":
        return ("pi", "_", type_of(t[1]), type_of(t[2]))
    return call(t[0], type_of(t[1]))


def literal(t, value):
    """The normal form of a value."""
    if t == NATURAL:
        return ("nat", value)
    if t == BOOL:
        return ("bool", value)
    if t == INTEGER:
        return ("int", value)
    if t == TEXT:
        return ("text", [value], [])
    if t[0] == "union":
        return alternative(t, value[0], value[1] and literal(dict(t[1])[value[0]], value[1][0]))
    if t[0] == "List":
        return ("list", [literal(t[1], v) for v in value]) if value else ("empty list", type_of(t))
    if t[0] == "Optional":
        return call("None", type_of(t[1])) if value is None else ("some", literal(t[1], value[0]))
    return ("record", [(label, literal(u, value[label])) for label, u in t[1]])


def alternative(t, label, e):
    """An alternative of a union, of this expression if it has a type."""
    bare = ("field", type_of(t), label)
    return bare if e is None else ("app", bare, e)


class NoValue(Exception):
    """A value has no JSON value: its normal form has none at this place, which is the first one."""


def below(number, t, value):
    """The JSON value of a part of this number."""
    try:
        return json_value(t, value)
    except NoValue as fault:
        raise NoValue([number, *fault.args[0]]) from None


def json_value(t, value):
    """The JSON value as Python has it, with the keys of objects in order."""
    if t in (NATURAL, INTEGER):
        if not LEAST_NUMBER <= value <= MOST_NUMBER:
            raise NoValue([])
        return value
    if t in (BOOL, TEXT):
        return value
    if t[0] == "List":
        return [below(k, t[1], v) for k, v in enumerate(value)]
    if t[0] == "Optional":
        return None if value is None else below(0, t[1], value[0])
    if t[0] == "record":
        rows = sorted(t[1], key=lambda row: row[0].encode())
        return {label: below(k, u, value[label]) for k, (label, u) in enumerate(rows)}
    if t[0] == "union":
        label, payload = value
        return label if payload is None else below(1, dict(t[1])[label], payload[0])
    raise NoValue([])


class TooLarge(Exception):
    """A number of the program passes the greatest one."""


def natural(n):
    if n > MOST_NATURAL:
        raise TooLarge
    return n


class Maker:
    """Makes programs, each as an expression and a function from the values of the variables in scope to its value."""

    def __init__(self, source, ground=GROUND):
        self.source, self.ground = source, ground

    def program(self, depth):
        """A program, its type and its value."""
        while True:
            t = self.source.choice(self.ground)
            e, run = self.make(t, depth, [])
            try:
                return e, t, run([])
            except TooLarge:
                continue

    def make(self, t, depth, scope):
        usable = [k for k, (_, u) in enumerate(scope) if u == t]
        if usable and self.source.random() < 0.3:
            k = self.source.choice(usable)
            name = scope[k][0]
            index = sum(1 for x, _ in scope[k + 1:] if x == name)
            return ("var", name, index), lambda values: values[k]
        if depth <= 0:
            return self.leaf(t, scope)
        ways = [self.own, self.own, self.applied, self.bound, self.chosen, self.selected, self.annotated, self.repeated, self.folded,
                self.merged]
        return self.source.choice(ways)(t, depth - 1, scope)

    def leaf(self, t, scope):
        if t == NATURAL:
            n = self.source.randrange(10)
            return ("nat", n), lambda values: n
        if t == BOOL:
            b = self.source.random() < 0.5
            return ("bool", b), lambda values: b
        if t == TEXT:
            s = self.source.choice(["", "a", "b c", "$", "\"", "\n", "λ"])
            return ("text", [s], []), lambda values: s
        if t[0] == "List":
            return ("empty list", type_of(t)), lambda values: []
        if t[0] == "Optional":
            return call("None", type_of(t[1])), lambda values: None
        if t[0] == "record":
            parts = [(label, *self.leaf(u, scope)) for label, u in t[1]]
            return ("record", [(label, e) for label, e, _ in parts]), lambda values: {label: run(values) for label, _, run in parts}
        return self.function(t, 0, scope)

    def function(self, t, depth, scope):
        name = self.source.choice(NAMES)
        body, run = self.make(t[2], depth, scope + [(name, t[1])])
        return ("lam", name, type_of(t[1]), body), lambda values: lambda v: run(values + [v])

    def kind(self):
        return self.source.choice(self.ground)

    # ---- ways that are there for every type

    def applied(self, t, depth, scope):
        a = self.source.choice(self.ground + [("function", NATURAL, NATURAL)])
        f, run = self.make(("function", a, t), depth, scope)
        e, run_argument = self.make(a, depth, scope)
        return ("app", f, e), lambda values: run(values)(run_argument(values))

    def bound(self, t, depth, scope):
        a = self.source.choice(self.ground + [("function", NATURAL, NATURAL)])
        name = self.source.choice(NAMES)
        e, run_value = self.make(a, depth, scope)
        body, run = self.make(t, depth, scope + [(name, a)])
        note = type_of(a) if self.source.random() < 0.5 else None
        return ("let", name, note, e, body), lambda values: run(values + [run_value(values)])

    def chosen(self, t, depth, scope):
        (c, test), (e, first), (f, second) = self.make(BOOL, depth, scope), self.make(t, depth, scope), self.make(t, depth, scope)
        return ("if", c, e, f), lambda values: first(values) if test(values) else second(values)

    def selected(self, t, depth, scope):
        rows = (("k", t), ("l", self.kind()))
        e, run = self.make(("record", rows), depth, scope)
        return ("field", e, "k"), lambda values: run(values)["k"]

    def annotated(self, t, depth, scope):
        e, run = self.make(t, depth, scope)
        return ("annot", e, type_of(t)), run

    def repeated(self, t, depth, scope):
        n = self.source.randrange(4)
        (f, step), (e, start) = self.make(("function", t, t), depth, scope), self.make(t, depth, scope)

        def run(values):
            value, once = start(values), step(values)
            for _ in range(n):
                value = once(value)
            return value

        return call("Natural/fold", ("nat", n), type_of(t), f, e), run

    def folded(self, t, depth, scope):
        a = self.kind()
        (l, items), (e, start) = self.make(("List", a), depth, scope), self.make(t, depth, scope)
        f, step = self.make(("function", a, ("function", t, t)), depth, scope)

        def run(values):
            value, once = start(values), step(values)
            for item in reversed(items(values)):
                value = once(item)(value)
            return value

        return call("List/fold", type_of(a), l, type_of(t), f, e), run

    def merged(self, t, depth, scope):
        a = self.kind()
        (o, value), (e, none) = self.make(("Optional", a), depth, scope), self.make(t, depth, scope)
        f, some = self.make(("function", a, t), depth, scope)

        def run(values):
            got = value(values)
            return none(values) if got is None else some(values)(got[0])

        return ("merge", ("record", [("None", e), ("Some", f)]), o, None), run

    # ---- ways of a type's own

    def two(self, t, depth, scope):
        return self.make(t, depth, scope), self.make(t, depth, scope)

    def own(self, t, depth, scope):
        if t == NATURAL:
            return self.number(depth, scope)
        if t == BOOL:
            return self.truth(depth, scope)
        if t == TEXT:
            return self.text(depth, scope)
        if t[0] == "function":
            return self.function(t, depth, scope)
        return {"List": self.list, "Optional": self.optional, "record": self.record}[t[0]](t, depth, scope)

    def number(self, depth, scope):
        way = self.source.randrange(4)
        if way == 3:
            a = self.kind()
            e, run = self.make(("List", a), depth, scope)
            return call("List/length", type_of(a), e), lambda values: len(run(values))
        (e, first), (f, second) = self.two(NATURAL, depth, scope)
        if way == 0:
            return ("bin", "+", e, f), lambda values: natural(first(values) + second(values))
        if way == 1:
            return ("bin", "*", e, f), lambda values: natural(first(values) * second(values))
        return call("Natural/subtract", e, f), lambda values: max(0, second(values) - first(values))

    def truth(self, depth, scope):
        way = self.source.randrange(7)
        if way >= 4:
            name, test = [("Natural/isZero", lambda n: n == 0), ("Natural/even", lambda n: n % 2 == 0), ("Natural/odd", lambda n: n % 2 == 1)][way - 4]
            e, run = self.make(NATURAL, depth, scope)
            return call(name, e), lambda values: test(run(values))
        mark, join = [("||", lambda a, b: a or b), ("&&", lambda a, b: a and b), ("==", lambda a, b: a == b), ("!=", lambda a, b: a != b)][way]
        (e, first), (f, second) = self.two(BOOL, depth, scope)
        return ("bin", mark, e, f), lambda values: join(first(values), second(values))

    def text(self, depth, scope):
        way = self.source.randrange(4)
        if way == 0:
            e, run = self.make(NATURAL, depth, scope)
            return call("Natural/show", e), lambda values: str(run(values))
        (e, first), (f, second) = self.two(TEXT, depth, scope)
        if way == 1:
            return ("bin", "++", e, f), lambda values: first(values) + second(values)
        if way == 2:
            return call("Text/replace", ("text", ["a"], []), e, f), lambda values: second(values).replace("a", first(values))
        pieces = [self.source.choice(["", "a", " b"]) for _ in range(3)]
        return ("text", pieces, [e, f]), lambda values: pieces[0] + first(values) + pieces[1] + second(values) + pieces[2]

    def list(self, t, depth, scope):
        way = self.source.randrange(4)
        if way == 0:
            parts = [self.make(t[1], depth, scope) for _ in range(self.source.randrange(1, 4))]
            return ("list", [e for e, _ in parts]), lambda values: [run(values) for _, run in parts]
        if way == 1:
            e, run = self.make(t, depth, scope)
            return call("List/reverse", type_of(t[1]), e), lambda values: run(values)[::-1]
        (e, first), (f, second) = self.two(t, depth, scope)
        return ("bin", "#", e, f), lambda values: first(values) + second(values)

    def optional(self, t, depth, scope):
        way = self.source.randrange(3)
        if way == 0:
            e, run = self.make(t[1], depth, scope)
            return ("some", e), lambda values: [run(values)]
        name, at = [("List/head", 0), ("List/last", -1)][way - 1]
        e, run = self.make(("List", t[1]), depth, scope)

        def end(values):
            items = run(values)
            return [items[at]] if items else None

        return call(name, type_of(t[1]), e), end

    def record(self, t, depth, scope):
        way = self.source.randrange(3)
        if way == 0:
            parts = [(label, *self.make(u, depth, scope)) for label, u in t[1]]
            return ("record", [(label, e) for label, e, _ in parts]), lambda values: {label: run(values) for label, _, run in parts}
        if way == 1:
            (e, first), (f, second) = self.two(t, depth, scope)
            return ("bin", "⫽", e, f), lambda values: {**first(values), **second(values)}
        label, u = self.source.choice(t[1])
        (e, first), (f, second) = self.make(t, depth, scope), self.make(u, depth, scope)
        return ("with", e, [label], f), lambda values: {**first(values), label: second(values)}
