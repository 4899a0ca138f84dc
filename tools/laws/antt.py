"""Runs definitions of crates/*/specs: functions, and types that are decided by computing (a type is its truth).

A definition is compiled to a Python function that remembers its answers, so that the laws of a history cost what its last steps cost.
Lists are tuples, a history is a chain of cells (`Cell`), a constructor a `Con`, a record a `Rec`. What can't be decided by computing
(`(x : T) × ..`, `(x : T) → ..`) raises `Undecided`."""
import os, re, sys

sys.setrecursionlimit(400_000)


class Undecided(Exception):
    pass


class Con:
    __slots__ = ("name", "args", "_h")

    def __init__(self, name, *args):
        self.name, self.args, self._h = name, args, hash((name, args))

    def __eq__(self, other):
        return self is other or (isinstance(other, Con) and self._h == other._h and self.name == other.name and self.args == other.args)

    def __hash__(self):
        return self._h

    def __repr__(self):
        return self.name if not self.args else "%s(%s)" % (self.name, ", ".join(map(short, self.args)))


def short(x):
    if isinstance(x, tuple) and len(x) > 12 and all(isinstance(i, int) for i in x):
        return "<%d octets>" % len(x)
    return repr(x)


class Rec:
    __slots__ = ("f", "_h")

    def __init__(self, **f):
        self.f, self._h = f, None

    def __eq__(self, other):
        return self is other or (isinstance(other, Rec) and hash(self) == hash(other) and self.f == other.f)

    def __hash__(self):
        if self._h is None:
            self._h = hash(tuple(sorted((k, v) for k, v in self.f.items() if not callable(v))))
        return self._h

    def __repr__(self):
        return "{%s}" % ", ".join("%s = %s" % (k, short(v)) for k, v in self.f.items() if not callable(v))


class Cell:
    """A history that isn't empty; each is its own."""
    __slots__ = ("head", "tail", "size")

    def __init__(self, head, tail):
        self.head, self.tail, self.size = head, tail, (tail.size if tail != () else 0) + 1


def history(steps):
    """From the oldest step."""
    h = ()
    for s in steps:
        h = cons(s, h)
    return h


class Fn:
    """A function that waits for further arguments."""
    __slots__ = ("base", "need", "args")

    def __init__(self, base, need, args=()):
        self.base, self.need, self.args = base, need, args

    def __call__(self, *more):
        args = self.args + more
        if len(args) < self.need:
            return Fn(self.base, self.need, args)
        if len(args) == self.need:
            return self.base(*args)
        return self.base(*args[: self.need])(*args[self.need:])

    def __eq__(self, other):
        return isinstance(other, Fn) and self.base is other.base and self.args == other.args

    def __hash__(self):
        return hash((id(self.base), self.args))


NONE = Con("None")
TRACE = []          # of the fields that failed last, the innermost first


def some(x):
    return Con("Some", x)


def field(r, name):
    if isinstance(r, tuple) and name in ("0", "1"):
        return r[int(name)]
    return r.f[name]


def updated(r, **f):
    return Rec(**{**r.f, **f})


def conj(record, fields):
    for name, thunk in fields:
        if not thunk():
            TRACE.append("%s.%s" % (record, name))
            return False
    return True


def remembered(fn):
    memo = {}

    def call(*args):
        try:
            return memo[args]
        except KeyError:
            memo[args] = r = fn(*args)
            return r
        except TypeError:
            return fn(*args)
    call.memo = memo
    return call


PASSED = {}


def every(*parts):
    """A product of types; what fails is remembered by its number."""
    for i, part in enumerate(parts):
        if not part():
            TRACE.append(".%d" % i)
            return False
    return True


def either(a, b):
    if a() or b():
        return True
    TRACE[:] = ["⊎"]
    return False


def says(name, truth):
    """A type without parts: which it is is remembered where it fails."""
    if not truth:
        TRACE.append(name)
    return truth


def all_of(p, xs):
    for i, x in enumerate(xs):
        if not p(x):
            TRACE.append(".1" * i + ".0")
            return False
    return True


def each_follows(may, h):
    key = ("follows", may)
    passed, seen = PASSED.setdefault(key, set()), []
    while h != () and h not in passed:
        if not may(h.head, h.tail):
            TRACE.append("at step %d: %s" % (h.size, short(h.head)))
            return False
        seen.append(h)
        h = h.tail
    passed.update(seen)
    return True


def at_each_moment(p, h):
    passed, seen = PASSED.setdefault(("moment", p), set()), []
    while h not in passed:
        if not p(h):
            TRACE.append("at step %d" % (h.size if h != () else 0))
            return False
        seen.append(h)
        if h == ():
            break
        h = h.tail
    passed.update(seen)
    return True


def opt(f, o, d):
    return f(o.args[0]) if o.name == "Some" else d


def find(f, xs):
    for x in xs:
        if f(x):
            return some(x)
    return NONE


def position(f, xs):
    for i, x in enumerate(xs):
        if f(x):
            return some(i)
    return NONE


def fold(f, a, xs):
    for x in xs:
        a = f(a, x)
    return a


def starts_with(eq, xs, ys):
    return xs[: len(ys)] == ys


def flat(xss):
    return tuple(x for xs in xss for x in xs)


STD = {
    "nat_lt": lambda a, b: a < b, "nat_le": lambda a, b: a <= b, "nat_eq": lambda a, b: a == b, "not": lambda b: not b,
    "min": min, "max": max, "length": len, "take": lambda n, xs: xs[:n], "drop": lambda n, xs: xs[n:], "reverse": lambda xs: xs[::-1],
    "filter": lambda f, xs: tuple(x for x in xs if f(x)), "map": lambda f, xs: tuple(f(x) for x in xs),
    "flat_map": lambda f, xs: flat(f(x) for x in xs), "list_any": lambda f, xs: any(f(x) for x in xs),
    "list_all": lambda f, xs: all(f(x) for x in xs), "count_by": lambda f, xs: sum(1 for x in xs if f(x)),
    "sum_by": lambda f, xs: sum(f(x) for x in xs), "option_map": lambda f, o: some(f(o.args[0])) if o.name == "Some" else NONE,
    "option_map_or": opt, "option_and_then": lambda f, o: f(o.args[0]) if o.name == "Some" else NONE,
    "option_to_list": lambda o: o.args, "unwrap_or": lambda o, d: o.args[0] if o.name == "Some" else d,
    "is_some": lambda o: o.name == "Some", "is_none": lambda o: o.name == "None", "find": find, "position": position,
    "slice_get": lambda xs, i: some(xs[i]) if i < len(xs) else NONE, "slice_index": lambda xs, i: xs[i] if i < len(xs) else 0,
    "fold": fold, "replicate": lambda n, x: (x,) * n, "bytes_eq": lambda a, b: a == b, "starts_with": starts_with,
    "to_be_bytes": lambda w, n: tuple(n.to_bytes(w, "big")), "from_be_bytes": lambda w, xs: int.from_bytes(bytes(xs), "big"),
    "codes": lambda s: s, "IsTrue": lambda b: says("≡", b), "AllByRecursion": all_of,
    "All": lambda p, xs: all(p(x) for x in xs), "suc": lambda n: n + 1,
    "EachFollows": each_follows, "AtEachMoment": at_each_moment,
}
ARITY = {"nat_lt": 2, "nat_le": 2, "nat_eq": 2, "not": 1, "min": 2, "max": 2, "length": 1, "take": 2, "drop": 2, "reverse": 1, "filter": 2, "map": 2,
         "flat_map": 2, "list_any": 2, "list_all": 2, "count_by": 2, "sum_by": 2, "option_map": 2, "option_map_or": 3,
         "option_and_then": 2, "option_to_list": 1, "unwrap_or": 2, "is_some": 1, "is_none": 1, "find": 2, "position": 2, "slice_get": 2,
         "slice_index": 2, "fold": 3, "replicate": 2, "bytes_eq": 2, "starts_with": 3, "to_be_bytes": 2, "from_be_bytes": 2, "codes": 1,
         "IsTrue": 1, "AllByRecursion": 2, "All": 2, "suc": 1, "EachFollows": 2, "AtEachMoment": 2}
# the last argument is looked at only where it is asked for
LAZY = {"OnTrue": "(not %s or %s)", "OnFalse": "(%s or %s)"}
VALUES = {"w16": 2, "w32": 4, "w64": 8, "zero": 0, "true": True, "false": False, "PROTOCOL_ERROR": 1, "FLOW_CONTROL_ERROR": 3,
          "STREAM_CLOSED": 5, "FRAME_SIZE_ERROR": 6, "REFUSED_STREAM": 7, "ENHANCE_YOUR_CALM": 11}
NATIVE = {"tape_laws.History.EachFollows", "tape_laws.History.AtEachMoment"}

TOKEN = re.compile(r'"(?:[^"\\]|\\.)*"|0x[0-9a-f]+|[A-Za-z_ℕ][\w.]*|\d+|→|×|⊎|≡|≢|≤|<|>|==|\+\+|&&|\|\||[+\-*/%^]|∷|λ|\[\]|[(){};,.:=⊥]|↦')


class Parser:
    def __init__(self, text):
        self.toks, self.i = TOKEN.findall(text), 0

    def peek(self, k=0):
        return self.toks[self.i + k] if self.i + k < len(self.toks) else None

    def next(self):
        self.i += 1
        return self.toks[self.i - 1]

    def eat(self, t):
        got = self.next() if self.peek() else None
        if got != t:
            raise SyntaxError("wanted %r, found %r near %s" % (t, got, " ".join(self.toks[max(0, self.i - 12): self.i + 6])))

    LEVELS = [["→"], ["×", "⊎"], ["≡", "≢", "<", "≤"], ["||"], ["&&"], ["=="], ["∷", "++"], ["+", "-"], ["*", "/", "%"], ["^"]]
    RIGHT = {"→", "×", "⊎", "∷", "++", "&&", "||", "^"}

    def expr(self, level=0):
        if level == len(self.LEVELS):
            return self.application()
        ops = self.LEVELS[level]
        left = self.expr(level + 1)
        while self.peek() in ops:
            op = self.next()
            if op in self.RIGHT:
                return ("op", op, left, self.expr(level))
            left = ("op", op, left, self.expr(level + 1))
        return left

    def application(self):
        t = self.peek()
        if t == "λ":
            self.next()
            names = []
            while self.peek() not in (".",):
                x = self.next()
                if x == "(":
                    names.append(self.next())
                    self.eat(":")
                    while self.peek() != ")":
                        self.next()
                    self.eat(")")
                elif x.endswith("."):
                    names.append(x[:-1])
                    return ("lam", names, self.expr())
                else:
                    names.append(x)
            self.eat(".")
            return ("lam", names, self.expr())
        if t == "let":
            self.next()
            name = self.next()
            if self.peek() == ":":
                self.next()
                while self.peek() != "=":
                    self.next()
            self.eat("=")
            value = self.expr()
            self.eat("in")
            return ("let", name, value, self.expr())
        if t == "if":
            self.next()
            c = self.expr()
            self.eat("then")
            a = self.expr()
            self.eat("else")
            return ("if", c, a, self.expr())
        f = self.atom()
        args = []
        while self.starts_atom():
            args.append(self.application() if self.peek() in ("λ",) else self.atom())
        return ("app", f, args) if args else f

    def starts_atom(self):
        t = self.peek()
        return t is not None and (t in ("(", "[]", "⊥", "{", "record") or t[0] in '"ℕ' or (re.match(r"[A-Za-z_0-9]", t) and t not in ("then", "else", "in", "where", "let", "if")))

    def atom(self):
        t = self.next()
        if t == "{":            # an implicit argument
            while self.next() != "}":
                pass
            return ("implicit",)
        if t == "(":
            k = self.i
            while self.toks[k] not in (":", ")", "(", "{", "λ") and re.match(r"[A-Za-z_]\w*$", self.toks[k]):
                k += 1
            if k > self.i and self.toks[k] == ":":
                depth = 1
                while depth:
                    depth += {"(": 1, ")": -1}.get(self.next(), 0)
                return ("binder",)
            e = self.expr()
            if self.peek() == ",":
                self.next()
                e = ("pair", e, self.expr())
            self.eat(")")
            return self.fields(e)
        if t == "record":
            base = None
            if self.peek() != "{":
                base = self.atom()
            self.eat("{")
            fields = []
            while self.peek() != "}":
                name = self.next()
                self.eat("=")
                fields.append((name, self.expr()))
                if self.peek() == ";":
                    self.next()
            self.eat("}")
            return self.fields(("record", base, fields))
        if t == "[]":
            return ("nil",)
        if t == "⊥":
            return ("val", "says('⊥', False)")
        if t[0] == '"':
            return ("val", "tuple(%s.encode())" % t)
        if t.startswith("0x") or t[0].isdigit():
            return ("val", str(int(t, 0)))
        return self.fields(("name", t))

    def fields(self, e):
        while self.peek() == "." and self.peek(1) and re.match(r"\w", self.peek(1)):
            self.next()
            for name in self.next().split("."):
                e = ("field", e, name)
        return e


class Spec:
    """The definitions of crates, by `crate.File.name`."""

    def __init__(self, top):
        self.top, self.defs, self.files, self.fns = top, {}, {}, {}
        self.globals = {"Con": Con, "Rec": Rec, "Fn": Fn, "NONE": NONE, "some": some, "field": field, "updated": updated, "conj": conj, "Cell": Cell, "Undecided": Undecided, "STD": STD, "every": every, "either": either, "says": says, "undecided": self.undecided, "get": self.get, "sub": lambda a, b: max(0, a - b), "div": lambda a, b: a // b if b else 0, "mod": lambda a, b: a % b if b else a, "minus": self.minus}

    @staticmethod
    def minus(a, b):
        return a - b

    @staticmethod
    def undecided(*_):
        raise Undecided()

    # ---- reading files
    def load(self, crate, name):
        key = "%s.%s" % (crate, name)
        if key in self.files:
            return self.files[key]
        text = open("%s/crates/%s/specs/%s.antt" % (self.top, crate, name)).read()
        uses, body = {}, []
        for line in text.split("\n"):
            if line.strip().startswith("--"):
                continue
            line = line.split(" -- ")[0]
            m = re.match(r"(?:pub )?use Rattle\.([\w.]+)\.\{(.*)\}$", line)
            if m:
                for part in m.group(2).split(","):
                    part = part.strip()
                    old, new = (part.split(" as ") + [part])[:2] if " as " in part else (part, part)
                    uses[new] = (m.group(1), old)
            elif line.startswith("use "):
                m = re.match(r"use Rattle\.([\w.]+) as (\w+)", line)
                if m:
                    uses[m.group(2)] = (m.group(1), None)
            else:
                body.append(line)
        file = self.files[key] = {"uses": uses, "crate": crate, "name": name}
        self.read_body(file, body, [])
        return file

    def read_body(self, file, lines, params):
        chunks, i = [], 0
        while i < len(lines):
            if not lines[i].strip():
                i += 1
                continue
            j = i + 1
            while j < len(lines) and (not lines[j].strip() or lines[j][0] in " }"):
                j += 1
            chunks.append([x for x in lines[i:j] if x.strip()])
            i = j
        last = None
        for chunk in chunks:
            head = chunk[0]
            if head.startswith("module _"):
                ps = [n for g in re.findall(r"\(([^:()]*):", head) for n in g.split()]
                self.read_body(file, [x[2:] for x in chunk[1:]], params + ps)
                continue
            m = re.match(r"(?:abbrev |unfoldable )?pub (?:(data|record|mod) )?\s*([^\s:({]+)", head)
            if m and m.group(1) == "data" or m and m.group(1) == "mod":
                continue
            if m and m.group(1) == "record":
                self.read_record(file, m.group(2), chunk, params)
                last = None
                continue
            if m and re.match(r"(abbrev |unfoldable )?pub [^\s]+ :", head):
                last = m.group(2)
                self.define(file, last, {"kind": "fn", "clauses": [], "params": params})
                continue
            if re.match(r"(abbrev |unfoldable )?[^\s]+ :( |$)", head) and "=" not in head.split(":")[0]:
                last = re.match(r"(?:abbrev |unfoldable )?([^\s]+) :", head).group(1)
                self.define(file, last, {"kind": "fn", "clauses": [], "params": params})
                continue
            if last and head.split()[0] == last:
                self.defs[self.key(file, last)]["clauses"].append(" ".join(x.strip() for x in chunk))

    def key(self, file, name):
        return "%s.%s.%s" % (file["crate"], file["name"], name)

    def define(self, file, name, d):
        d["file"] = file
        d["siblings"] = None
        self.defs[self.key(file, name)] = d

    def read_record(self, file, name, chunk, params):
        text = " ".join(x.strip() for x in chunk[:1])
        sig = text[text.index(name) + len(name):]
        names = []
        for m in re.finditer(r"([({])([^:(){}]*):", sig):
            if m.group(1) == "(":
                names += m.group(2).split()
        fields, cur = [], None
        for line in chunk[1:]:
            m = re.match(r"  pub (\w+) :(.*)$", line)
            if m:
                cur = [m.group(1), m.group(2)]
                fields.append(cur)
            elif cur is not None:
                cur[1] += " " + line.strip()
        self.define(file, name, {"kind": "record", "params": params + names, "fields": fields})

    # ---- names
    def resolve(self, file, name):
        """The key of a definition that the name stands for in the file, or None."""
        k = self.key(file, name)
        if k in self.defs:
            return k
        use = file["uses"].get(name)
        if use is None:
            return None
        module, old = use
        m = re.match(r"(\w+)\.specs\.(\w+)$", module)
        if m and m.group(1) != "std" and old is not None:
            return self.resolve(self.load(m.group(1), m.group(2)), old)
        return None

    def get(self, key):
        if key in self.fns:
            return self.fns[key]
        d = self.defs[key]
        short_name = key.split(".")[-1]
        if key in NATIVE:
            f = Fn(STD[short_name], ARITY[short_name])
        elif d["kind"] == "record":
            f = self.compile_record(key, d)
        else:
            f = self.compile_fn(key, d)
        self.fns[key] = f
        return f

    def named(self, crate, file, name):
        self.load(crate, file)
        return self.get("%s.%s.%s" % (crate, file, name))

    # ---- compiling
    def compile_record(self, key, d):
        env = {p: "v_" + p for p in d["params"]}
        parts = []
        for name, text in d["fields"]:
            tree = Parser(text).expr()
            parts.append("(%r, lambda: %s)" % (name, self.code(d, tree, env)))
            env[name] = "undecided()"
        if not d["params"]:
            return None
        src = "def fn(%s):\n return conj(%r, [%s])\n" % (", ".join("v_" + p for p in d["params"]), key.split(".")[-1], ", ".join(parts))
        return self.made(src, len(d["params"]), key)

    def made(self, src, arity, key):
        scope = {}
        try:
            exec(compile(src, key, "exec"), self.globals, scope)
        except SyntaxError:
            print(src)
            raise
        fn = scope["fn"]
        if arity == 0:
            return fn()
        return Fn(remembered(fn), arity)

    def compile_fn(self, key, d):
        clauses = []
        name = key.split(".")[-1]
        arity = None
        for text in d["clauses"]:
            p = Parser(text)
            assert p.next() == name, (key, text)
            pats = []
            while p.peek() != "=":
                pats.append(self.pattern_atom(p))
            p.eat("=")
            tree = p.expr()
            if p.peek() is not None:
                raise SyntaxError("left over in %s: %s" % (key, p.toks[p.i:]))
            clauses.append((pats, tree))
            arity = len(pats)
        args = ["v_" + x for x in d["params"]] + ["a%d" % i for i in range(arity)]
        lines = ["def fn(%s):" % ", ".join(args)]
        for pats, tree in clauses:
            env = {x: "v_" + x for x in d["params"]}
            tests, binds = [], []
            for i, pat in enumerate(pats):
                self.match(d, pat, "a%d" % i, tests, binds)
            names = {}
            for n, e in binds:
                names[n] = e
            env.update(names)
            body = self.code(d, tree, {**env})
            if tests:
                lines.append(" if %s:" % " and ".join(tests))
                lines.append("  return " + body)
            else:
                lines.append(" return " + body)
                break
        else:
            lines.append(" raise ValueError('no clause of %s for ' + repr(%s))" % (key, ", ".join(["a%d" % i for i in range(arity)]) or "None"))
        return self.made("\n".join(lines) + "\n", len(args), key)

    def pattern_atom(self, p):
        t = p.next()
        if t == "(":
            e = self.pattern(p)
            if p.peek() == ",":
                p.next()
                e = ("ppair", e, self.pattern(p))
            p.eat(")")
            return e
        if t == "[]":
            return ("pnil",)
        if t == "{":
            while p.next() != "}":
                pass
            return self.pattern_atom(p)
        if t[0].isdigit():
            return ("plit", t)
        return ("pname", t)

    def pattern(self, p):
        f = self.pattern_atom(p)
        if f[0] == "pname" and p.peek() not in (")", "∷", ","):
            args = []
            while p.peek() not in (")", "∷", ","):
                args.append(self.pattern_atom(p))
            f = ("pcon", f[1], args)
        if p.peek() == "∷":
            p.next()
            return ("pcons", f, self.pattern(p))
        return f

    def match(self, d, pat, e, tests, binds):
        k = pat[0]
        if k == "pnil":
            tests.append("%s == ()" % e)
        elif k == "plit":
            tests.append("%s == %s" % (e, pat[1]))
        elif k == "ppair":
            self.match(d, pat[1], "%s[0]" % e, tests, binds)
            self.match(d, pat[2], "%s[1]" % e, tests, binds)
        elif k == "pname":
            t = pat[1]
            last = t.split(".")[-1]
            if t == "_":
                return
            if t in ("zero",):
                tests.append("%s == 0" % e)
            elif t in ("true", "false"):
                tests.append(("%s" if t == "true" else "not %s") % e)
            elif last[0].isupper() and t not in ("P", "May", "Before"):
                tests.append("%s.name == %r" % (e, last))
            else:
                binds.append((t, e))
        elif k == "pcon":
            last = pat[1].split(".")[-1]
            if last == "suc":
                tests.append("%s > 0" % e)
                self.match(d, pat[2][0], "(%s - 1)" % e, tests, binds)
                return
            if last == "pos":
                tests.append("%s >= 0" % e)
                self.match(d, pat[2][0], e, tests, binds)
                return
            if last == "negsuc":
                tests.append("%s < 0" % e)
                return
            tests.append("%s.name == %r" % (e, last))
            for i, q in enumerate(pat[2]):
                self.match(d, q, "%s.args[%d]" % (e, i), tests, binds)
        elif k == "pcons":
            # a history's cell or a tuple
            tests.append("%s != ()" % e)
            first = "(%s.head if isinstance(%s, Cell) else %s[0])" % (e, e, e)
            rest = "(%s.tail if isinstance(%s, Cell) else %s[1:])" % (e, e, e)
            self.match(d, pat[1], first, tests, binds)
            self.match(d, pat[2], rest, tests, binds)

    OPS = {"==": "(%s == %s)", "≡": "(%s == %s)", "≢": "(%s != %s)", "<": "(%s < %s)", "≤": "(%s <= %s)", "&&": "(%s and %s)", "||": "(%s or %s)",
           "×": "(%s and %s)", "⊎": "(%s or %s)", "+": "(%s + %s)", "*": "(%s * %s)", "-": "sub(%s, %s)", "/": "div(%s, %s)", "%": "mod(%s, %s)",
           "^": "(%s ** %s)", "++": "(%s + %s)"}

    def code(self, d, tree, env):
        k = tree[0]
        if k == "val":
            return tree[1]
        if k == "nil":
            return "()"
        if k == "binder":
            return "undecided()"
        if k == "pair":
            return "(%s, %s)" % (self.code(d, tree[1], env), self.code(d, tree[2], env))
        if k == "op":
            op = tree[1]
            if op == "→":
                return "undecided()"
            if op in ("×",) and tree[2][0] == "binder":
                return "undecided()"
            a, b = self.code(d, tree[2], env), self.code(d, tree[3], env)
            if op == "×":
                parts, right = [a], tree[3]
                while right[0] == "op" and right[1] == "×":
                    parts.append(self.code(d, right[2], env))
                    right = right[3]
                return "every(%s)" % ", ".join("lambda: " + x for x in parts + [self.code(d, right, env)])
            if op in ("≡", "≤", "<"):
                return "says(%r, %s)" % (op, self.OPS[op] % (a, b))
            if op == "⊎":
                return "either(lambda: %s, lambda: %s)" % (a, b)
            if op == "∷":
                return "cons(%s, %s)" % (a, b)
            return self.OPS[op] % (a, b)
        if k == "lam":
            names = tree[1]
            inner = {**env, **{n: "v_" + n for n in names if n != "_"}}
            return "Fn(lambda %s: %s, %d)" % (", ".join("v_" + n if n != "_" else "_" for n in names), self.code(d, tree[2], inner), len(names))
        if k == "let":
            return "(lambda v_%s: %s)(%s)" % (tree[1], self.code(d, tree[3], {**env, tree[1]: "v_" + tree[1]}), self.code(d, tree[2], env))
        if k == "if":
            return "(%s if %s else %s)" % (self.code(d, tree[2], env), self.code(d, tree[1], env), self.code(d, tree[3], env))
        if k == "field":
            return "field(%s, %r)" % (self.code(d, tree[1], env), tree[2])
        if k == "record":
            fields = ", ".join("%s=%s" % (n, self.code(d, e, env)) for n, e in tree[2])
            return "Rec(%s)" % fields if tree[1] is None else "updated(%s, %s)" % (self.code(d, tree[1], env), fields)
        if k == "name":
            return self.name(d, tree[1], env, [])
        if k == "app":
            args = [a for a in tree[2] if a[0] != "implicit"]
            if tree[1][0] == "name":
                return self.name(d, tree[1][1], env, args)
            f = self.code(d, tree[1], env)
            return "%s(%s)" % (f, ", ".join(self.code(d, a, env) for a in args)) if args else f
        raise SyntaxError(tree)

    def name(self, d, t, env, args):
        codes = [self.code(d, a, env) for a in args]
        parts = t.split(".")
        if parts[0] in env:
            e = env[parts[0]]
            for f in parts[1:]:
                e = "field(%s, %r)" % (e, f)
            return "%s(%s)" % (e, ", ".join(codes)) if codes else e
        if parts[0] == "Unit":
            return "True"
        if len(parts) > 1 and parts[-1][0].isupper():       # a constructor by its module
            return self.con(parts[-1], codes)
        key = self.resolve(d["file"], parts[0])
        if key is not None:
            own = self.defs[key]["params"] if self.defs[key]["kind"] == "fn" else []
            if own and self.defs[key]["file"] is d["file"] and d.get("params"):
                codes = ["v_" + p for p in own] + codes
            e = "get(%r)" % key
            if codes:
                e = "%s(%s)" % (e, ", ".join(codes))
            for f in parts[1:]:
                e = "field(%s, %r)" % (e, f)
            return e
        # what the library has
        n = d["file"]["uses"].get(parts[0], (None, parts[0]))[1] or parts[0]
        if n in LAZY:
            return LAZY[n] % tuple(codes)
        if n in ("IfSome", "IsSomeAnd"):
            return "(lambda o: %s if o.name == 'None' else (%s)(o.args[0]))(%s)" % ("True" if n == "IfSome" else "False", codes[1], codes[0])
        if n == "MatchOption":
            return "(lambda o: %s if o.name == 'None' else (%s)(o.args[0]))(%s)" % (codes[1], codes[2], codes[0])
        if n in ("cond", "MatchBool"):
            return "(%s if %s else %s)" % (codes[1], codes[0], codes[2])
        if n in STD:
            full = "Fn(STD[%r], %d)" % (n, ARITY[n])
            if len(codes) == ARITY[n]:
                return "STD[%r](%s)" % (n, ", ".join(codes))
            return "%s(%s)" % (full, ", ".join(codes)) if codes else full
        if n in VALUES:
            return repr(VALUES[n])
        if n == "pos":
            return codes[0]
        if n[0].isupper():
            return self.con(n, codes)
        raise NameError("%s in %s.%s" % (t, d["file"]["crate"], d["file"]["name"]))

    @staticmethod
    def con(n, codes):
        return "Con(%s)" % ", ".join([repr(n)] + codes) if codes else ("NONE" if n == "None" else "Con(%r)" % n)


CELLS = {}


def cons(head, tail):
    """A list with one element more; a history is the same one each time."""
    if not isinstance(tail, Cell) and not (tail == () and isinstance(head, Con) and head.name in ("Noted", "Marked")):
        return (head,) + tail
    key = (head, tail)
    if key not in CELLS:
        CELLS[key] = Cell(head, tail)
    return CELLS[key]


def spec(top):
    s = Spec(top)
    s.globals["cons"] = cons
    return s
