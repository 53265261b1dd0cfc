"""Expressions, made at random, with what each is written as: a text that spells it, its one printed text, its binary form.

An expression is a tuple: its kind, then its parts. Nothing here is taken from the program: the grammar and the layout
are those of docs/DEFINITIONS.md, the binary form is that of RFC 7049 and the standard's "Binary encoding".
"""

import re
import struct

LEVELS = {"≡": 1, "?": 2, "||": 3, "+": 4, "++": 5, "#": 6, "&&": 7, "∧": 8, "⫽": 9, "⩓": 10, "*": 11, "==": 12, "!=": 13,
          "::": 15}
CODES = {"||": 0, "&&": 1, "==": 2, "!=": 3, "+": 4, "*": 5, "++": 6, "#": 7, "∧": 8, "⫽": 9, "⩓": 10, "?": 11, "≡": 12,
         "::": 13}
SPELLINGS = {"≡": ["≡", "==="], "∧": ["∧", "/\\"], "⫽": ["⫽", "//"], "⩓": ["⩓", "//\\\\"], "λ": ["λ", "\\"],
             "∀": ["∀", "forall"], "→": ["→", "->"]}
BUILTINS = ("Type Kind Sort Bool Natural Integer Text List Optional None Natural/fold Natural/build Natural/isZero "
            "Natural/even Natural/odd Natural/toInteger Natural/show Natural/subtract Integer/show Integer/negate "
            "Integer/clamp List/build List/fold List/length List/head List/last List/indexed List/reverse Text/show "
            "Text/replace").split()
KEYWORDS = "if then else let in using missing assert as merge Some toMap forall with Infinity NaN".split()
LEFT_OUT = ("Double Double/show Integer/toDouble Date Date/show Time Time/show TimeZone TimeZone/show Bytes "
            "showConstructor using Infinity NaN").split()
RESERVED = {"True", "False", *BUILTINS, *KEYWORDS, *LEFT_OUT}
LABELS = ["x", "y", "foo", "a", "b", "_", "x1", "a-b", "c/d", "if", "True", "Natural", "Some", "", "a b", "Double", "{}"]


NULL = b"\xf6"
WIDTHS = ((24, ">B", 1), (25, ">H", 2), (26, ">I", 4), (27, ">Q", 8))


class Encoder:
    """Writes the binary form; with a source in longer heads and with map keys in any order, which say the same."""

    def __init__(self, source=None):
        self.source = source

    def head(self, major, n):
        """A head (RFC 7049, section 2.1), in its shortest form where there is no source."""
        shortest = next(k for k in range(5) if n < (24 if k == 0 else 256 ** WIDTHS[k - 1][2]))
        k = shortest if self.source is None or self.source.random() < 0.8 else self.source.randrange(shortest, 5)
        if k == 0:
            return bytes([major << 5 | n])
        code, form, _ = WIDTHS[k - 1]
        return bytes([major << 5 | code]) + struct.pack(form, n)

    def text(self, text):
        data = text.encode()
        return self.head(3, len(data)) + data

    def number(self, n):
        """A number in its fewest bytes, a bignum where it needs more than 64 bits."""
        major, value = (0, n) if n >= 0 else (1, -1 - n)
        if value < 2 ** 64:
            return self.head(major, value)
        data = value.to_bytes((value.bit_length() + 7) // 8, "big")
        return bytes([0xC2 + major]) + self.head(2, len(data)) + data

    def array(self, *items):
        return self.head(4, len(items)) + b"".join(items)

    def coded(self, code, *items):
        return self.array(self.head(0, code), *items)

    def map(self, rows, value):
        rows = by_label(rows)
        if self.source is not None:
            self.source.shuffle(rows)
        return self.head(5, len(rows)) + b"".join(self.text(x) + value(v) for x, v in rows)

    def location(self, loc):
        scheme, parts = loc[0], loc[1:]
        if scheme in ("http", "https"):
            host, components, query = parts
            return [self.head(0, 0 if scheme == "http" else 1), NULL, self.text(host), *map(self.text, components),
                    NULL if query is None else self.text(query)]
        if scheme == "env":
            return [self.head(0, 6), self.text(parts[0])]
        if scheme == "missing":
            return [self.head(0, 7)]
        return [self.head(0, {"/": 2, "./": 3, "../": 4, "~/": 5}[scheme]), *map(self.text, parts[0])]

    def expression(self, e):
        kind = e[0]
        this = self.expression
        if kind == "var":
            return self.number(e[2]) if e[1] == "_" else self.array(self.text(e[1]), self.number(e[2]))
        if kind == "builtin":
            return self.text(e[1])
        if kind == "bool":
            return b"\xf5" if e[1] else b"\xf4"
        if kind in ("nat", "int"):
            return self.coded(15 if kind == "nat" else 16, self.number(e[1]))
        if kind == "text":
            items = [self.text(e[1][0])]
            for part, piece in zip(e[2], e[1][1:]):
                items += [this(part), self.text(piece)]
            return self.coded(18, *items)
        if kind == "import":
            loc, mode, digest = e[1:]
            hashed = NULL if digest is None else self.head(2, 34) + b"\x12\x20" + digest
            return self.coded(24, hashed, self.head(0, mode), *self.location(loc))
        if kind in ("lam", "pi"):
            name = [] if e[1] == "_" else [self.text(e[1])]
            return self.coded(1 if kind == "lam" else 2, *name, this(e[2]), this(e[3]))
        if kind == "let":
            items = []
            while e[0] == "let":
                items += [self.text(e[1]), NULL if e[2] is None else this(e[2]), this(e[3])]
                e = e[4]
            return self.coded(25, *items, this(e))
        if kind == "app":
            spine = []
            while e[0] == "app":
                spine.append(this(e[2]))
                e = e[1]
            return self.coded(0, this(e), *reversed(spine))
        if kind == "if":
            return self.coded(14, *map(this, e[1:]))
        if kind == "bin":
            return self.coded(3, self.head(0, CODES[e[1]]), this(e[2]), this(e[3]))
        if kind == "empty list":
            t = e[1]
            if t[0] == "app" and t[1] == ("builtin", "List"):
                return self.coded(4, this(t[2]))
            return self.coded(28, this(t))
        if kind == "list":
            return self.coded(4, NULL, *map(this, e[1]))
        if kind == "some":
            return self.coded(5, NULL, this(e[1]))
        if kind in ("merge", "tomap"):
            return self.coded(6 if kind == "merge" else 27, *(this(p) for p in e[1:] if p is not None))
        if kind in ("record", "record type"):
            return self.coded(8 if kind == "record" else 7, self.map(e[1], this))
        if kind == "union":
            return self.coded(11, self.map(e[1], lambda v: NULL if v is None else this(v)))
        if kind == "field":
            return self.coded(9, this(e[1]), self.text(e[2]))
        if kind == "project":
            labels = sorted(e[2], key=str.encode)
            if self.source is not None:
                self.source.shuffle(labels)
            return self.coded(10, this(e[1]), *map(self.text, labels))
        if kind == "project by type":
            return self.coded(10, this(e[1]), self.array(this(e[2])))
        if kind == "assert":
            return self.coded(19, this(e[1]))
        if kind == "annot":
            return self.coded(26, this(e[1]), this(e[2]))
        if kind == "with":
            return self.coded(29, this(e[1]), self.array(*map(self.text, e[2])), this(e[3]))
        raise ValueError(kind)


def by_label(rows):
    return sorted(rows, key=lambda row: row[0].encode())


def encoded(e):
    """The binary form."""
    return Encoder().expression(e)


def encoded_anyhow(source, e):
    """Bytes that are read as the expression."""
    return Encoder(source).expression(e)


def level(e):
    """How tightly an expression binds."""
    kind = e[0]
    if kind in ("lam", "pi", "let", "if", "assert", "annot", "empty list", "with"):
        return 0
    if kind in ("merge", "tomap"):
        return 14 if e[-1] is None else 0
    if kind == "bin":
        return LEVELS[e[1]]
    if kind in ("app", "some"):
        return 14
    if kind == "import":
        return 15
    if kind in ("field", "project", "project by type"):
        return 16
    return 17


SIMPLE = re.compile(r"[A-Za-z_][A-Za-z0-9_/-]*\Z")
ENVIRONMENT = re.compile(r"[A-Za-z_][A-Za-z0-9_]*\Z")
COMPONENT = re.compile(r"[!$-'*+\-.0-9:;=@A-Z^-z|~]+\Z")


class Printer:
    """Writes an expression in the one printed layout, or with random gaps, brackets and spellings where it has a source."""

    def __init__(self, source=None):
        self.source = source

    def maybe(self, chance=0.3):
        return self.source is not None and self.source.random() < chance

    def one(self, *choices):
        return choices[0] if self.source is None else self.source.choice(choices)

    def gap(self):
        """White space that is needed; in the layout a space."""
        if self.source is None:
            return " "
        return self.source.choice([" ", "\n", "\t ", "\r\n", " {- {- é -} -} ", " -- \"${\n", "  "])

    def open_gap(self, layout=" "):
        """White space that is not needed, and what the layout has there."""
        if self.source is None:
            return layout
        return self.source.choice(["", "", " ", "\n", "{--}"])

    def mark(self, mark):
        return self.one(*SPELLINGS[mark]) if mark in SPELLINGS else mark

    def name(self, x):
        if SIMPLE.match(x) and x not in RESERVED and not self.maybe(0.1):
            return x
        return "`" + x + "`"

    def key(self, x):
        """A label of a field, which may be a built-in name, `True`, `False` or `Some` as it stands."""
        if self.maybe() and (x in BUILTINS or x in ("True", "False", "Some")):
            return x
        return self.name(x)

    def at(self, m, e):
        if level(e) < m or self.maybe(0.05):
            return "(" + self.open_gap("") + self.expression(e) + self.open_gap("") + ")"
        return self.expression(e)

    def colon(self):
        return self.gap() + ":" + self.gap()

    def escaped(self, piece):
        short = {"\"": "\\\"", "\\": "\\\\", "$": "\\$" if self.source else "\\$", "\b": "\\b", "\f": "\\f", "\n": "\\n",
                 "\r": "\\r", "\t": "\\t"}
        out = []
        for c in piece:
            if c in short:
                out.append(short[c])
            elif c < " ":
                out.append("\\u%04X" % ord(c))
            elif self.maybe(0.1):
                out.append("\\u{%X}" % ord(c))
            else:
                out.append(c)
        return "".join(out)

    def number(self, n):
        if n >= 0 and self.maybe(0.2):
            return "0x%x" % n
        return str(n)

    def location(self, loc):
        scheme, parts = loc[0], loc[1:]
        if scheme in ("http", "https"):
            host, components, query = parts
            return scheme + "://" + host + "".join("/" + c for c in components) + ("" if query is None else "?" + query)
        if scheme == "env":
            return "env:" + (parts[0] if ENVIRONMENT.match(parts[0]) else "\"" + parts[0] + "\"")
        if scheme == "missing":
            return "missing"
        front = {"/": "", "./": ".", "../": "..", "~/": "~"}[scheme]
        return front + "".join("/" + (c if COMPONENT.match(c) else "\"" + c + "\"") for c in parts[0])

    def rows(self, opening, rows, mark, closing, none):
        """Rows between marks, with the optional marks at the front and the back."""
        if not rows:
            return none
        front = mark if self.maybe(0.2) else ""
        back = self.gap() + mark if self.maybe(0.2) else ""
        between = (self.gap() if self.source or mark == "|" else "") + mark + self.gap()
        return opening + self.gap() + front + self.gap() * bool(front) + between.join(rows) + back + self.gap() + closing

    def entries(self, rows):
        """The entries of a record: dotted ones, lone ones and several of one label where the source says so."""
        out = []

        def entry(x, v):
            if self.source is not None and v[0] == "bin" and v[1] == "∧" and self.maybe(0.7):
                return entry(x, v[2]) + [(x, given([x], v[3]))]
            return [(x, given([x], v))]

        def given(keys, v):
            while self.maybe(0.5) and v[0] == "record" and len(v[1]) == 1:
                keys = keys + [v[1][0][0]]
                v = v[1][0][1]
            if len(keys) == 1 and v == ("var", keys[0], 0) and self.maybe(0.7):
                return self.key(keys[0]) if keys[0] in ("True", "False", *BUILTINS) else self.name(keys[0])
            return (self.open_gap("") + "." + self.open_gap("")).join(map(self.key, keys)) + self.gap() + "=" + self.gap() + self.at(0, v)

        groups = [entry(x, v) for x, v in (rows if self.source else by_label(rows))]
        if self.source is None:
            return [text for group in groups for _, text in group]
        while any(groups):
            group = self.source.choice([g for g in groups if g])
            out.append(group.pop(0)[1])
        return out

    def expression(self, e):
        kind = e[0]
        if kind == "var":
            if e[2] == 0 and not self.maybe(0.1):
                return self.name(e[1])
            return self.name(e[1]) + self.open_gap("") + "@" + self.open_gap("") + self.number(e[2])
        if kind == "builtin":
            return e[1]
        if kind == "bool":
            return str(e[1])
        if kind == "nat":
            return self.number(e[1])
        if kind == "int":
            return ("-" if e[1] < 0 else self.one("+") if e[1] else self.one("+", "-")) + self.number(abs(e[1]))
        if kind == "text":
            out = self.escaped(e[1][0])
            for part, piece in zip(e[2], e[1][1:]):
                out += "${" + self.open_gap("") + self.at(0, part) + self.open_gap("") + "}" + self.escaped(piece)
            return "\"" + out + "\""
        if kind == "import":
            loc, mode, digest = e[1:]
            out = self.location(loc)
            if digest is not None:
                digits = digest.hex()
                out += self.gap() + "sha256:" + (digits.upper() if self.maybe() else digits)
            if mode:
                out += self.gap() + "as" + self.gap() + ["", "Text", "Location"][mode]
            return out
        if kind in ("lam", "pi"):
            if kind == "pi" and e[1] == "_" and not self.maybe():
                return self.at(1, e[2]) + self.gap() + self.mark("→") + self.open_gap() + self.at(0, e[3])
            front = self.mark("λ" if kind == "lam" else "∀")
            return (front + self.open_gap("") + "(" + self.open_gap("") + self.name(e[1]) + self.colon() + self.at(0, e[2])
                    + self.open_gap("") + ")" + self.open_gap() + self.mark("→") + self.open_gap() + self.at(0, e[3]))
        if kind == "let":
            note = "" if e[2] is None else self.colon() + self.at(0, e[2])
            front = "let" + self.gap() + self.name(e[1]) + note + self.gap() + "=" + self.open_gap() + self.at(0, e[3]) + self.gap()
            if e[4][0] == "let" and self.maybe():
                return front + self.expression(e[4])
            return front + "in" + self.gap() + self.at(0, e[4])
        if kind == "app":
            return self.at(14, e[1]) + self.gap() + self.at(15, e[2])
        if kind == "if":
            return ("if" + self.gap() + self.at(0, e[1]) + self.gap() + "then" + self.gap() + self.at(0, e[2]) + self.gap()
                    + "else" + self.gap() + self.at(0, e[3]))
        if kind == "bin":
            m, l, r = e[1:]
            if m == "::":
                return self.at(16, l) + self.open_gap("") + "::" + self.open_gap("") + self.at(16, r)
            right = self.at(LEVELS[m] + 1, r)
            after = self.gap() if m in ("+", "?") else self.open_gap()
            return self.at(LEVELS[m], l) + self.gap() + self.mark(m) + (self.gap() if not after and right[:1] in "=+/\\" else after) + right
        if kind == "empty list":
            return "[" + self.open_gap("") + "]" + self.colon() + self.at(0, e[1])
        if kind == "list":
            return self.rows("[", [self.at(0, v) for v in e[1]], ",", "]", None)
        if kind == "some":
            return "Some" + self.gap() + self.at(15, e[1])
        if kind == "merge":
            note = "" if e[3] is None else self.colon() + self.at(0, e[3])
            return "merge" + self.gap() + self.at(15, e[1]) + self.gap() + self.at(15, e[2]) + note
        if kind == "tomap":
            return "toMap" + self.gap() + self.at(15, e[1]) + ("" if e[2] is None else self.colon() + self.at(0, e[2]))
        if kind == "record":
            return self.rows("{", self.entries(e[1]), ",", "}", "{" + self.open_gap("") + "=" + self.open_gap("") + "}")
        if kind == "record type":
            rows = e[1] if self.source else by_label(e[1])
            return self.rows("{", [self.key(x) + self.colon() + self.at(0, v) for x, v in rows], ",", "}", "{" + self.open_gap("") + "}")
        if kind == "union":
            rows = e[1] if self.source else by_label(e[1])
            return self.rows("<", [self.key(x) + ("" if v is None else self.colon() + self.at(0, v)) for x, v in rows], "|", ">",
                             "<" + self.open_gap("") + ">")
        if kind == "field":
            return self.at(16, e[1]) + self.open_gap("") + "." + self.open_gap("") + self.key(e[2])
        if kind == "project":
            xs = e[2] if self.source else sorted(e[2], key=str.encode)
            return self.at(16, e[1]) + "." + self.rows("{", [self.key(x) for x in xs], ",", "}", "{" + self.open_gap("") + "}")
        if kind == "project by type":
            return self.at(16, e[1]) + "." + "(" + self.at(0, e[2]) + ")"
        if kind == "assert":
            return "assert" + self.colon() + self.at(0, e[1])
        if kind == "annot":
            special = e[1][0] in ("merge", "tomap") and e[1][-1] is None
            left = "(" + self.expression(e[1]) + ")" if special else self.at(1, e[1])
            return left + self.colon() + self.at(0, e[2])
        if kind == "with":
            # in the layout an update of an update stands in brackets; a text may write both in a row
            inner = self.expression(e[1]) if e[1][0] == "with" and self.maybe() else self.at(15, e[1])
            path = (self.open_gap("") + "." + self.open_gap("")).join(map(self.key, e[2]))
            return inner + self.gap() + "with" + self.gap() + path + self.gap() + "=" + self.open_gap() + self.at(1, e[3])
        raise ValueError(kind)


def printed(e):
    """The one printed text."""
    return Printer().at(0, e)


def spelled(source, e):
    """Some text that spells the expression."""
    return Printer(source).at(0, e)


class Maker:
    """Makes expressions at random."""

    def __init__(self, source):
        self.source = source

    def label(self):
        return self.source.choice(LABELS)

    def labels(self, most=4):
        return list({self.label(): None for _ in range(self.source.randrange(most + 1))})

    def piece(self):
        alphabet = ["a", "B", " ", "\"", "\\", "$", "{", "}", "\n", "\t", "\r", "\x00", "\x1f", "\x7f", "é", "λ", "𝄞", "'", "''"]
        return "".join(self.source.choice(alphabet) for _ in range(self.source.randrange(5)))

    def location(self):
        kind = self.source.randrange(8)
        words = ["a", "b.dhall", "..", ".", "x y", "a,b", "(", "q", "~", "a+b"]
        components = [self.source.choice(words) for _ in range(self.source.randrange(1, 4))]
        if kind < 4:
            return (["/", "./", "../", "~/"][kind], tuple(components))
        if kind < 6:
            path = [self.source.choice(["", "a", "b.dhall", "%20", "a+b", "..", "x;y", "@"]) for _ in range(self.source.randrange(1, 4))]
            query = self.source.choice([None, "", "q=1", "a/b?c"])
            return (["http", "https"][kind - 4], self.source.choice(["h", "example.com", "a-b.c:8080", "h.", "h:", "127.0.0.1"]), tuple(path), query)
        return ("env", self.source.choice(["HOME", "_x1", "a b", "1x", "{"])) if kind == 6 else ("missing",)

    def leaf(self):
        pick = self.source.randrange(7)
        if pick == 0:
            return ("var", self.label(), self.source.choice([0, 0, 1, 23, 24, 255, 65536, 2 ** 31 - 1]))
        if pick == 1:
            return ("builtin", self.source.choice(BUILTINS))
        if pick == 2:
            return ("bool", self.source.random() < 0.5)
        if pick == 3:
            return ("nat", self.source.choice([0, 1, 23, 24, 2 ** 32, 2 ** 64 - 1, 2 ** 64, 2 ** 128 - 1, self.source.randrange(2 ** 128)]))
        if pick == 4:
            return ("int", self.source.choice([0, 1, -1, -24, -25, 2 ** 127 - 1, -2 ** 127, -2 ** 64 - 1, self.source.randrange(-2 ** 127, 2 ** 127)]))
        if pick == 5:
            return ("text", [self.piece()], [])
        digest = bytes(self.source.randrange(256) for _ in range(32)) if self.source.random() < 0.3 else None
        return ("import", self.location(), self.source.choice([0, 0, 1, 2]), digest)

    def expression(self, depth):
        if depth <= 0 or self.source.random() < 0.15:
            return self.leaf()
        part = lambda: self.expression(depth - 1 - self.source.randrange(2))
        kind = self.source.choice(["lam", "pi", "let", "app", "if", "bin", "bin", "empty list", "list", "some", "merge", "tomap",
                                   "record", "record", "record type", "union", "field", "project", "project by type", "assert",
                                   "annot", "with", "text"])
        note = lambda: part() if self.source.random() < 0.4 else None
        if kind in ("lam", "pi"):
            return (kind, self.label(), part(), part())
        if kind == "let":
            return (kind, self.label(), note(), part(), part())
        if kind == "app":
            return (kind, part(), part())
        if kind == "if":
            return (kind, part(), part(), part())
        if kind == "bin":
            return (kind, self.source.choice(list(CODES)), part(), part())
        if kind in ("empty list", "some", "assert"):
            return (kind, part())
        if kind == "list":
            return (kind, [part() for _ in range(self.source.randrange(1, 4))])
        if kind == "merge":
            return (kind, part(), part(), note())
        if kind == "tomap":
            return (kind, part(), note())
        if kind in ("record", "record type"):
            return (kind, [(x, part()) for x in self.labels()])
        if kind == "union":
            return (kind, [(x, note()) for x in self.labels()])
        if kind == "field":
            return (kind, part(), self.label())
        if kind == "project":
            return (kind, part(), self.labels())
        if kind in ("project by type", "annot"):
            return (kind, part(), part())
        if kind == "with":
            return (kind, part(), [self.label() for _ in range(self.source.randrange(1, 3))], part())
        n = self.source.randrange(3)
        return ("text", [self.piece() for _ in range(n + 1)], [part() for _ in range(n)])
