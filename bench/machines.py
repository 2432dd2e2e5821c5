"""The product once more, in plain Python, to work out by: what a text spells or its first fault, the rules of declarations, starts and
schedules, the machine of programs, listings and the machine of code, and the reports of the commands that run.

It says everything in the shortest way, and takes the time for it. `reply` is the answer to a command that replays a program, `listed`
what is said of a listing, and `CodeRun` a run of a listing with the schedule that it stands for. What only the rules of statements can
tell isn't here: bench/plain/check.rs is a checker of these.
"""
import re
import sys

sys.setrecursionlimit(20_000)

WORD = 0xFFFFFFFF
KEYWORDS = frozenset("""var low high when lock nowrite hide inv thread assume guarantee skip unlock if else join while note as retype by
    auto hyp calc clash and left right use cases split have absurd not contra refl fwd rev axiom ring range version output level
    seen""".split())
TOKEN = re.compile(rb"(?P<blank>[ \t\r\n]+|//[^\n]*)|(?P<word>[a-z][a-z0-9_]*)|(?P<number>[0-9]+)"
                   rb"|(?P<sign>:=|==|!=|<=|&&|\|\||[:;,{}()\[\]_+\-*&|^<!])")


class Fault(Exception):
    """A malformed text: the kind of its first fault and its place."""

    def __init__(self, kind, at):
        super().__init__(kind, at)
        self.kind, self.at = kind, at


class Refused(Exception):
    """A rule of declarations that fails."""


def tokens_of(text):
    """Tokens with kind, text and place, and an end token. A word is `name` or its own kind, and so is a sign."""
    tokens, at = [], 0
    while at < len(text):
        found = TOKEN.match(text, at)
        if found is None:
            raise Fault("byte", at)
        kind, piece = found.lastgroup, found.group().decode("latin-1")
        if kind == "word":
            if len(piece) > 32:
                raise Fault("name", at)
            tokens.append((piece if piece in KEYWORDS else "name", piece, at))
        elif kind == "number":
            digits = piece.lstrip("0") or "0"
            if len(digits) > 10 or int(digits) > WORD:
                raise Fault("number", at)
            tokens.append(("number", int(digits), at))
        elif kind == "sign":
            tokens.append((piece, piece, at))
        at = found.end()
    tokens.append(("end", "", len(text)))
    return tokens


def check_depth(tokens):
    """No more than 200 brackets are open, and no more than 64 `!` follow each other."""
    brackets = marks = 0
    for kind, _, at in tokens:
        marks = marks + 1 if kind == "!" else 0
        if kind in ("(", "[", "{"):
            brackets += 1
        elif kind in (")", "]", "}"):
            brackets = max(brackets - 1, 0)
        if brackets > 200 or marks > 64:
            raise Fault("depth", at)


class Statement:
    """A statement: its kind, its place, and what it has."""

    def __init__(self, kind, at, **parts):
        self.kind, self.at = kind, at
        self.__dict__.update(parts)


class Thread:
    """A thread: its name, lists of modes, statements and places."""

    def __init__(self, name, at):
        self.name, self.at = name, at
        self.modes = {}
        self.body, self.end = [], 0


class Lock:
    """A lock: its name, its lists, and its invariant or None."""

    def __init__(self, name, at):
        self.name, self.at = name, at
        self.nowrite, self.hide, self.inv = [], [], None

    def under(self):
        return self.nowrite + self.hide


class Program:
    """Declarations: variables as (name, place, class), where a class is an expression."""

    def __init__(self):
        self.version = 1
        self.vars, self.locks, self.threads = [], [], []


# Expressions are numbers, names, ("!", e) and (operator, e, f).
LEVELS = [("||",), ("&&",), ("==", "!=", "<", "<="), ("|",), ("^",), ("&",), ("+", "-"), ("*",)]
CERTS = {"hyp": "n", "clash": "n", "absurd": "nn", "and": "pp", "left": "p", "right": "p", "use": "np", "cases": "npp", "split": "epp",
         "have": "epp", "not": "p", "contra": "p", "fwd": "ntp", "rev": "ntp", "axiom": "nap"}
PARTS = ("auto", "calc", "refl", "ring", "range")


class Reader:
    """Reads tokens by the grammar; faults of limits are kept, and the first in the text is told at the end."""

    def __init__(self, text):
        self.tokens = tokens_of(text)
        check_depth(self.tokens)
        self.next = 0
        self.uses, self.faults, self.statements = [], [], 0
        self.holes = False

    def kind(self):
        return self.tokens[self.next][0]

    def at(self):
        return self.tokens[self.next][2]

    def take(self, *kinds):
        """The text of the next token, which has to be of one of these kinds."""
        kind, text, at = self.tokens[self.next]
        if kind not in kinds:
            raise Fault("token", at)
        self.next += 1
        return text

    def has(self, kind):
        """Takes the next token where it is of this kind."""
        if self.kind() != kind:
            return False
        self.next += 1
        return True

    def use(self, is_lock=False):
        at = self.at()
        name = self.take("name")
        self.uses.append((name, is_lock, at))
        return name

    def names(self):
        names = [self.use()]
        while self.has(","):
            names.append(self.use())
        return names

    def limit(self, at, broken, kind="limit"):
        if broken:
            self.faults.append((at, kind))

    def whole(self, read):
        read()
        self.take("end")
        if self.faults:
            at, kind = min(self.faults, key=lambda fault: fault[0])
            raise Fault(kind, at)

    # Expressions: each reader gives the tree, its nodes and its height.

    def expr(self, holes=False):
        at, before = self.at(), self.holes
        self.holes = holes
        tree, nodes, height = self.level(0)
        self.holes = before
        self.limit(at, nodes > 1000)
        self.limit(at, nodes <= 1000 and height > 64, "depth")
        return tree

    def level(self, number):
        if number == len(LEVELS):
            return self.unary()
        left = self.level(number + 1)
        while self.kind() in LEVELS[number]:
            operator = self.take(*LEVELS[number])
            right = self.level(number + 1)
            left = ((operator, left[0], right[0]), left[1] + right[1] + 1, max(left[2], right[2]) + 1)
            if number == 2:
                break
        return left

    def unary(self):
        if self.has("!"):
            tree, nodes, height = self.unary()
            return ("!", tree), nodes + 1, height + 1
        if self.kind() == "number":
            return self.take("number"), 1, 1
        if self.has("("):
            inner = self.level(0)
            self.take(")")
            return inner
        if self.holes and self.has("_"):
            return "_", 1, 1
        return self.use(), 1, 1

    # Certificates: each reader gives the nodes and the height.

    def part(self):
        if self.kind() in PARTS:
            self.take(*PARTS)
            return 1, 1
        self.take("(")
        inner = self.cert()
        self.take(")")
        return inner

    def cert(self):
        if self.kind() not in CERTS:
            return self.part()
        nodes = height = 0
        for part in CERTS[self.take(*CERTS)]:
            if part == "n":
                self.take("number")
            elif part in "et":
                self.take("[")
                self.expr(part == "t")
                self.take("]")
            elif part == "a":
                self.take("(")
                self.expr()
                while self.has(","):
                    self.expr()
                self.take(")")
            else:
                inner = self.part()
                nodes, height = nodes + inner[0], max(height, inner[1])
        return nodes + 1, height + 1

    def proofs(self):
        if not self.has("by"):
            return
        self.take("{")
        while True:
            self.take("number")
            self.take(":")
            at = self.at()
            nodes, height = self.cert()
            self.limit(at, nodes > 10_000)
            self.limit(at, nodes <= 10_000 and height > 64, "depth")
            if not self.has(","):
                break
        self.take("}")

    def state(self):
        at, predicates, types = self.at(), 0, 0
        self.take("{")
        if self.kind() not in (";", "}"):
            predicates = self.listed(self.expr)
        if self.has(";"):
            types = self.listed(self.type_of)
        self.take("}")
        self.limit(at, predicates > 64 or types > 256)

    def listed(self, read):
        count = 1
        read()
        while self.has(","):
            read()
            count += 1
        return count

    def type_of(self):
        self.use()
        self.take(":")
        self.expr()

    def block(self, around):
        self.limit(self.at(), around > 63, "depth")
        self.take("{")
        block = []
        while self.kind() != "}":
            block.append(self.statement(around + 1))
        self.take("}")
        return block

    def statement(self, around):
        at = self.at()
        self.statements += 1
        self.limit(at, self.statements == 20_001)
        kind = self.kind()
        if kind == "name":
            return self.assignment(at)
        if kind == "output" and self.version == 2:
            self.take("output")
            made = Statement("output", at, value=self.expr())
            self.proofs()
        elif kind in ("lock", "unlock"):
            self.take(kind)
            made = Statement(kind, at, lock=self.use(True))
            if kind == "unlock":
                self.proofs()
        elif kind in ("if", "while"):
            return self.guarded(kind, at, around)
        elif kind == "note":
            self.take("note")
            made = Statement("note", at)
            self.state()
            self.proofs()
        else:
            made = Statement(self.take("skip"), at)
        self.take(";")
        return made

    def assignment(self, at):
        name = self.use()
        self.take(":=")
        made = Statement("assign", at, name=name, value=self.expr())
        if self.has("as"):
            self.expr()
        while self.has("retype"):
            self.use()
            self.take("as")
            self.expr()
        self.proofs()
        self.take(";")
        return made

    def guarded(self, kind, at, around):
        self.take(kind)
        made = Statement(kind, at, value=self.expr(), other=[])
        if kind == "while" and self.has("inv"):
            self.state()
        made.block = self.block(around)
        if kind == "if":
            self.take("else")
            made.other = self.block(around)
            if self.has("join"):
                self.state()
        self.proofs()
        return made

    # Declarations.

    def declared(self, declarations, most):
        at = self.at()
        name = self.take("name")
        self.limit(at, len(declarations) == most)
        return name, at

    def variable(self, p):
        self.take("var")
        name, at = self.declared(p.vars, 256)
        self.take(":")
        value = 0 if self.take("low", "high") == "high" else 1
        if value and self.has("when"):
            value = ("when", self.expr())
        self.take(";")
        p.vars.append((name, at, value))

    def lock(self, p):
        self.take("lock")
        lock = Lock(*self.declared(p.locks, 64))
        if self.has("nowrite"):
            lock.nowrite = self.names()
        if self.has("hide"):
            lock.hide = self.names()
        if self.has("inv"):
            lock.inv = self.expr()
        self.take(";")
        p.locks.append(lock)

    def thread(self, p):
        self.take("thread")
        thread = Thread(*self.declared(p.threads, 16))
        for word in ("assume", "guarantee"):
            for what in ("nowrite", "hide"):
                thread.modes[word, what] = []
                if self.kind() == word and self.tokens[self.next + 1][0] == what:
                    self.next += 2
                    thread.modes[word, what] = self.names()
            if self.kind() == word and not thread.modes[word, "hide"]:
                raise Fault("token", self.tokens[self.next + 1][2])
        self.take_block(thread)
        p.threads.append(thread)

    def take_block(self, thread):
        thread.body = self.block(0)
        thread.end = self.tokens[self.next - 1][2]

    def program(self):
        p = Program()
        self.version = 1
        if self.has("version"):
            at = self.at()
            if self.take("number") != 2:
                raise Fault("token", at)
            self.take(";")
            p.version = self.version = 2
        while self.kind() == "var":
            self.variable(p)
        while self.kind() == "lock":
            self.lock(p)
        while self.kind() == "thread":
            self.thread(p)
        self.p = p


def program_of(text):
    """The program that a text spells, with its uses of names."""
    reader = Reader(text)
    reader.whole(reader.program)
    reader.p.uses = reader.uses
    return reader.p


def expression_of(text):
    """The expression that a word spells, with its uses of names."""
    reader = Reader(text)
    trees = []
    reader.whole(lambda: trees.append(reader.expr()))
    return trees[0], reader.uses


def variables_of(tree):
    """The variables of an expression, each once, in the order in which they come."""
    if isinstance(tree, str):
        return [tree]
    if isinstance(tree, int):
        return []
    return list(dict.fromkeys(x for part in tree[1:] for x in variables_of(part)))


def controls_of(value):
    return variables_of(value[1]) if isinstance(value, tuple) else []


def rules_of_declarations(p):
    """The rules W1 to W9: the first that fails is raised."""
    def refuse(rule, at, *names):
        raise Refused(f"refused {rule} at {at}: {' '.join(names)}")

    seen = set()
    for name, at in [(x[0], x[1]) for x in p.vars] + [(d.name, d.at) for d in p.locks + p.threads]:
        if name in seen:
            refuse("W1", at, name)
        seen.add(name)
    classes = {name: value for name, _, value in p.vars}
    locks = {lock.name for lock in p.locks}
    for name, is_lock, at in p.uses:
        if name not in (locks if is_lock else classes):
            refuse("W2", at, name)
    for _, at, value in p.vars:
        for control in controls_of(value):
            if classes[control] != 1:
                refuse("W3", at, control)
    listed = set()
    for lock in p.locks:
        for x in lock.under():
            if x in listed:
                refuse("W4", lock.at, x)
            listed.add(x)
    for lock in p.locks:
        for x in variables_of(lock.inv) if lock.inv is not None else []:
            if x not in lock.under():
                refuse("W5", lock.at, x)

    def assumed(thread):
        return thread.modes["assume", "nowrite"] + thread.modes["assume", "hide"]

    for thread in p.threads:
        for x in assumed(thread):
            if x in listed:
                refuse("W6", thread.at, x)
    for lock in p.locks:
        for x in lock.under():
            for control in controls_of(classes[x]):
                if control not in lock.under() and not all(control in assumed(thread) for thread in p.threads):
                    refuse("W7", lock.at, x, control)
    for thread in p.threads:
        for x in assumed(thread):
            for control in controls_of(classes[x]):
                if control not in assumed(thread):
                    refuse("W8", thread.at, x, control)
    for t in p.threads:
        for u in p.threads:
            if t is u:
                continue
            given = u.modes["guarantee", "nowrite"] + u.modes["guarantee", "hide"]
            for x in t.modes["assume", "nowrite"]:
                if x not in given:
                    refuse("W9", t.at, t.name, u.name, x)
            for x in t.modes["assume", "hide"]:
                if x not in u.modes["guarantee", "hide"]:
                    refuse("W9", t.at, t.name, u.name, x)


OPERATORS = {"+": lambda a, b: a + b & WORD, "-": lambda a, b: a - b & WORD, "*": lambda a, b: a * b & WORD, "&": lambda a, b: a & b,
             "|": lambda a, b: a | b, "^": lambda a, b: a ^ b, "==": lambda a, b: int(a == b), "!=": lambda a, b: int(a != b),
             "<": lambda a, b: int(a < b), "<=": lambda a, b: int(a <= b), "&&": lambda a, b: int(a != 0 and b != 0),
             "||": lambda a, b: int(a != 0 or b != 0)}


def value_of(tree, memory):
    if isinstance(tree, int):
        return tree
    if isinstance(tree, str):
        return memory[tree]
    if tree[0] == "!":
        return int(value_of(tree[1], memory) == 0)
    return OPERATORS[tree[0]](value_of(tree[1], memory), value_of(tree[2], memory))


def is_low(value, memory):
    return value_of(value[1], memory) != 0 if isinstance(value, tuple) else value != 0


def items_of(block, rest):
    """What remains where a block is entered: pairs of an item and what remains after it. Notes are no items."""
    for statement in reversed(block):
        if statement.kind != "note":
            rest = ((statement.kind, statement.at, statement), rest)
    return rest


class SourceRun:
    """A run of a program: memory and holders by name, outputs, and what remains of each thread."""

    def __init__(self, p, memory):
        self.p, self.memory = p, dict(memory)
        self.holders = {lock.name: None for lock in p.locks}
        self.outputs, self.stayed = [], 0
        self.rest = [items_of(thread.body, None) for thread in p.threads]

    def step(self, t):
        if self.rest[t] is None:
            return
        (kind, at, what), rest = self.rest[t]
        if kind == "assign":
            rest = (("put", at, (what.name, value_of(what.value, self.memory))), rest)
        elif kind == "put":
            self.memory[what[0]] = what[1]
        elif kind == "output":
            rest = (("emit", at, value_of(what.value, self.memory)), rest)
        elif kind == "emit":
            self.outputs.append(what)
        elif kind in ("if", "while"):
            rest = (("test", at, (value_of(what.value, self.memory), what)), rest)
        elif kind == "test":
            value, guarded = what
            if guarded.kind == "while" and value:
                rest = (("while", at, guarded), rest)
            rest = items_of(guarded.block if value else guarded.other, rest)
        elif kind == "lock":
            if self.holders[what.lock] is not None:
                self.stayed += 1
                return
            self.holders[what.lock] = t
        elif kind == "unlock":
            if self.holders[what.lock] != t:
                self.stayed += 1
                return
            self.holders[what.lock] = None
        self.rest[t] = rest

    def run(self, schedule):
        for t in schedule:
            self.step(t)
        return self

    def is_done(self, t):
        return self.rest[t] is None

    def stands(self, t):
        return f"at {self.rest[t][0][1]}"


def are_alike(left, right):
    """Whether two lists of what remains are the same but for values that are still to be stored or put out."""
    while left is not None and right is not None and left is not right:
        (kind, at, what), left = left
        (other_kind, other_at, other), right = right
        if (kind, at) != (other_kind, other_at):
            return False
        if kind == "test" and what != other or kind == "put" and what[0] != other[0]:
            return False
    return left is right


def difference(p, a, b, positions=are_alike):
    """The name of what two runs first differ in, or None."""
    for lock in p.locks:
        if a.holders[lock.name] != b.holders[lock.name]:
            return lock.name
    controls = {x for _, _, value in p.vars for x in controls_of(value)}
    hidden = {x for thread in p.threads for x in thread.modes["assume", "hide"]}
    hidden |= {x for lock in p.locks if a.holders[lock.name] is not None for x in lock.hide}
    for name, _, value in p.vars:
        if a.memory[name] != b.memory[name] and (name in controls or is_low(value, a.memory) and name not in hidden):
            return name
    if a.outputs != b.outputs:
        return "output"
    for t, thread in enumerate(p.threads):
        if not positions(a.rest[t], b.rest[t]):
            return thread.name
    return None


def bad_start(p, left, right):
    """The name of what starts aren't fit for, or None."""
    for name, _, value in p.vars:
        if is_low(value, left) and left[name] != right[name]:
            return name
    for lock in p.locks:
        if lock.inv is not None and not (value_of(lock.inv, left) and value_of(lock.inv, right)):
            return lock.name
    return None


class NoJson(Exception):
    """Bytes that are no JSON."""


JSON_NUMBER = re.compile(r"-?(?:0|[1-9][0-9]*)(\.[0-9]+)?([eE][+-]?[0-9]+)?")
ESCAPES = {'"': '"', "\\": "\\", "/": "/", "b": "\b", "f": "\f", "n": "\n", "r": "\r", "t": "\t"}


class Json:
    """Reads a JSON text as a tree: dict, list, str, bool, None, int for a word of 64 bits, and float for each other number."""

    def __init__(self, text):
        try:
            self.text = text.decode("utf-8")
        except UnicodeDecodeError as error:
            raise NoJson from error
        self.at = 0
        self.tree = self.value(0)
        self.blanks()
        if self.at < len(self.text):
            raise NoJson

    def blanks(self):
        while self.at < len(self.text) and self.text[self.at] in " \t\r\n":
            self.at += 1

    def peek(self):
        self.blanks()
        return self.text[self.at:self.at + 1]

    def take(self, piece):
        if not self.text.startswith(piece, self.at):
            raise NoJson
        self.at += len(piece)

    def value(self, depth):
        first = self.peek()
        if first in ("{", "[") and first:
            if depth == 127:
                raise NoJson
            return self.object(depth + 1) if first == "{" else self.list(depth + 1)
        if first == '"':
            return self.string()
        for word, value in (("true", True), ("false", False), ("null", None)):
            if first == word[0]:
                self.take(word)
                return value
        return self.number()

    def number(self):
        found = JSON_NUMBER.match(self.text, self.at)
        if found is None:
            raise NoJson
        self.at = found.end()
        text = found.group()
        if found.group(1) is None and found.group(2) is None and text != "-0" and len(text) < 21 and -2**63 <= int(text) < 2**64:
            return int(text)
        if float(text) in (float("inf"), float("-inf")):
            raise NoJson
        return float(text)

    def string(self):
        self.take('"')
        pieces = []
        while True:
            piece = self.text[self.at:self.at + 1]
            self.at += 1
            if piece == '"':
                return "".join(pieces)
            if piece < " ":
                raise NoJson
            pieces.append(self.escape() if piece == "\\" else piece)

    def escape(self):
        piece = self.text[self.at:self.at + 1]
        self.at += 1
        if piece in ESCAPES and piece:
            return ESCAPES[piece]
        if piece != "u":
            raise NoJson
        unit = self.unit()
        if 0xDC00 <= unit < 0xE000:
            raise NoJson
        if 0xD800 <= unit < 0xDC00:
            self.take("\\u")
            low = self.unit()
            if not 0xDC00 <= low < 0xE000:
                raise NoJson
            unit = 0x10000 + (unit - 0xD800) * 0x400 + low - 0xDC00
        return chr(unit)

    def unit(self):
        digits = self.text[self.at:self.at + 4]
        if not re.fullmatch("[0-9a-fA-F]{4}", digits):
            raise NoJson
        self.at += 4
        return int(digits, 16)

    def list(self, depth):
        self.take("[")
        items = []
        if self.peek() == "]":
            self.take("]")
            return items
        while True:
            items.append(self.value(depth))
            if self.peek() != ",":
                self.take("]")
                return items
            self.take(",")

    def object(self, depth):
        self.take("{")
        items = {}
        if self.peek() == "}":
            self.take("}")
            return items
        while True:
            if self.peek() != '"':
                raise NoJson
            key = self.string()
            self.blanks()
            self.take(":")
            items[key] = self.value(depth)
            if self.peek() != ",":
                self.take("}")
                return items
            self.take(",")


def is_below(value, limit):
    return type(value) is int and 0 <= value < limit


class Malformed(Exception):
    """A start or a schedule with its first fault."""


def start_of(text, p):
    """The memory of a start."""
    names = list(dict.fromkeys(x[0] for x in p.vars))
    try:
        tree = Json(text).tree
    except NoJson as error:
        raise Malformed("json") from error
    if not isinstance(tree, dict):
        raise Malformed("object")
    for name in names:
        if name not in tree:
            raise Malformed(f"missing {name}")
    if set(tree) != set(names):
        raise Malformed("unknown")
    for name in names:
        if not is_below(tree[name], WORD + 1):
            raise Malformed(f"word {name}")
    return tree


def schedule_of(text, threads):
    """The entries of a schedule."""
    try:
        tree = Json(text).tree
    except NoJson as error:
        raise Malformed("json") from error
    if not isinstance(tree, list):
        raise Malformed("list")
    if len(tree) > 100_000:
        raise Malformed("many")
    for i, entry in enumerate(tree):
        if not is_below(entry, threads):
            raise Malformed(f"entry {i}")
    return tree


# Listings and the machine of code.

NAME = "(?!(?:" + "|".join(sorted(KEYWORDS)) + r")(?: |$))([a-z][a-z0-9_]{0,31})"
NUMBER, REGISTER = "(0|[1-9][0-9]*)", "r([0-7])"
INSTRUCTIONS = {"load": f"{REGISTER} {NAME}", "store": f"{NAME} {REGISTER}", "jump": NUMBER, "jz": f"{REGISTER} {NUMBER}", "nop": "",
                "movc": f"{REGISTER} {NUMBER}", "movr": f"{REGISTER} {REGISTER}",
                "op": r"([+\-*&|^<]|==|!=|<=|&&|\|\|) " + f"{REGISTER} {REGISTER}", "acquire": NAME, "release": NAME, "out": REGISTER}
LINES = {word: re.compile(f"([012]) {word}" + (f" {rest}" if rest else "")) for word, rest in INSTRUCTIONS.items()}
HEADS = {word: re.compile(f"{word} {NAME}" + (f" {NUMBER}" if word == "thread" else "")) for word in ("var", "lock", "thread")}
NUMBERS = {"jump": (1,), "jz": (2,), "movc": (2,)}


class CodeFault(Exception):
    """What is said of a text that is no listing of code."""


class Code:
    """Code: version, names, and the lines of each thread as (weight, word, fields)."""

    def __init__(self):
        self.version = 1
        self.vars, self.locks, self.threads = [], [], []


def line_of(code, line):
    """An instruction, or None. Fields are as the listing has them, numbers as numbers."""
    word = line[2:].split(" ")[0]
    found = LINES[word].fullmatch(line) if word in LINES else None
    if found is None or word == "out" and code.version == 1:
        return None
    fields = list(found.groups())
    for i in NUMBERS.get(word, ()):
        if len(fields[i]) > 10 or int(fields[i]) > WORD:
            return None
        fields[i] = int(fields[i])
    known = {"load": (2, code.vars), "store": (1, code.vars), "acquire": (1, code.locks), "release": (1, code.locks)}
    if word in known and fields[known[word][0]] not in known[word][1]:
        return None
    return int(fields[0]), word, fields[1:]


def read_lines(code, lines):
    """Reads the lines behind the first; the number of the first line with which no listing begins is raised."""
    kinds, awaited = ["var", "lock", "thread"], 0
    for number, line in enumerate(lines, 2):
        if awaited:
            made = line_of(code, line)
            if made is None:
                raise CodeFault(f"Line({number})")
            code.threads[-1][1].append(made)
            awaited -= 1
            continue
        word = line.split(" ")[0]
        found = HEADS[word].fullmatch(line) if word in kinds else None
        if found is None:
            raise CodeFault(f"Line({number})")
        kinds = kinds[kinds.index(word):]
        if word != "thread":
            (code.vars if word == "var" else code.locks).append(found.group(1))
            continue
        if len(found.group(2)) > 10 or int(found.group(2)) > WORD:
            raise CodeFault(f"Line({number})")
        code.threads.append((found.group(1), []))
        awaited = int(found.group(2))
    if awaited:
        raise CodeFault(f"Line({len(lines) + 2})")


def code_of(text):
    """The code of a listing."""
    lines = text.decode("latin-1").split("\n")
    unfinished = lines.pop()
    code = Code()
    if not lines or lines[0] not in ("code 1", "code 2"):
        raise CodeFault("Line(1)")
    code.version = int(lines[0][5:])
    if unfinished:
        lines.append("?")
    read_lines(code, lines[1:])
    seen = set()
    for name in code.vars + code.locks + [thread[0] for thread in code.threads]:
        if name in seen:
            raise CodeFault(f"SameName {name}")
        seen.add(name)
    for t, (_, thread) in enumerate(code.threads):
        for i, (_, word, fields) in enumerate(thread):
            if word in ("jump", "jz") and fields[-1] > len(thread):
                raise CodeFault(f"Bad(BadTarget({t}, {i}))")
    return code


def listed(text):
    """What is shown of a text that is read as a listing: the listing itself, or the fault."""
    try:
        code_of(text)
    except CodeFault as fault:
        return f"{fault}\n".encode()
    return text


SIGNS = "+ - * & | ^ == != < <= && ||".split()


def four(number):
    return number.to_bytes(4, "little")


def named(name):
    return bytes([len(name)]) + name.encode()


def line_object(code, line):
    """The bytes of a line of code."""
    weight, word, fields = line
    known = {"load": (0, "rx"), "store": (1, "xr"), "jump": (2, "i"), "jz": (3, "ri"), "nop": (4, ""), "movc": (5, "ri"), "movr": (6, "rr"),
             "op": (7, "orr"), "acquire": (8, "l"), "release": (9, "l"), "out": (10, "r")}
    number, kinds = known[word]
    places = {"r": lambda field: bytes([int(field)]), "x": lambda field: four(code.vars.index(field)), "l": lambda field: four(code.locks.index(field)),
              "i": four, "o": lambda field: bytes([SIGNS.index(field)])}
    pieces = [places[kind](field) for kind, field in zip(kinds, fields)]
    return bytes([16 * weight + number]) + b"".join(pieces[::-1] if word == "store" else pieces)


def object_of(code):
    """The object of a code."""
    pieces = [b"COVO", bytes([code.version])]
    for names in (code.vars, code.locks):
        pieces += [four(len(names)), *map(named, names)]
    pieces.append(four(len(code.threads)))
    for name, lines in code.threads:
        pieces += [named(name), four(len(lines)), *(line_object(code, line) for line in lines)]
    return b"".join(pieces)


class ObjectReader:
    """Reads an object byte by byte. The first byte with which no object goes on, or the length, is raised."""

    def __init__(self, data):
        self.data, self.at, self.code = data, 0, Code()

    def byte(self, is_one):
        """A byte of some kind."""
        if self.at == len(self.data) or not is_one(self.data[self.at]):
            raise CodeFault(f"object at {self.at}")
        self.at += 1
        return self.data[self.at - 1]

    def number(self, count=2**32):
        """A number below a count, its lowest byte first. Each byte is one with which such a number can go on."""
        known = 0
        for place in range(4):
            known += 256**place * self.byte(lambda byte, above=known, place=place: above + 256**place * byte < count)
        return known

    def name(self):
        length = self.byte(lambda byte: 1 <= byte <= 32)
        name = ""
        for place in range(length):
            def goes_on(byte):
                known = name + chr(byte)
                return re.fullmatch("[a-z][a-z0-9_]*", known) and not (len(known) == length and known in KEYWORDS)
            name += chr(self.byte(goes_on))
        return name

    def names(self):
        return [self.name() for _ in range(self.number())]

    def register(self):
        return self.byte(lambda byte: byte < 8)

    def is_line(self, byte):
        """Whether a line begins with a byte: its weight and its instruction are there, and so is what that works on."""
        weight, number = divmod(byte, 16)
        return (weight <= 2 and number <= 10 and (number > 1 or self.code.vars) and (number not in (8, 9) or self.code.locks)
                and (number != 10 or self.code.version == 2))

    def line(self):
        weight, number = divmod(self.byte(self.is_line), 16)
        word = ["load", "store", "jump", "jz", "nop", "movc", "movr", "op", "acquire", "release", "out"][number]
        if word in ("load", "store"):
            register, x = self.register(), self.code.vars[self.number(len(self.code.vars))]
            return weight, word, [register, x] if word == "load" else [x, register]
        if word in ("acquire", "release"):
            return weight, word, [self.code.locks[self.number(len(self.code.locks))]]
        fields = [SIGNS[self.byte(lambda byte: byte < len(SIGNS))]] if word == "op" else []
        fields += [self.register() for _ in range({"jz": 1, "movc": 1, "movr": 2, "op": 2, "out": 1}.get(word, 0))]
        return weight, word, fields + ([self.number()] if word in ("jump", "jz", "movc") else [])

    def read(self):
        for due in b"COVO":
            self.byte(lambda byte, due=due: byte == due)
        self.code.version = self.byte(lambda byte: byte in (1, 2))
        self.code.vars, self.code.locks = self.names(), self.names()
        for _ in range(self.number()):
            name, count = self.name(), self.number()
            self.code.threads.append((name, [self.line() for _ in range(count)]))
        if self.at < len(self.data):
            raise CodeFault(f"object at {self.at}")
        names = self.code.vars + self.code.locks + [name for name, _ in self.code.threads]
        if len(set(names)) < len(names) or any(fields[-1] > len(lines) for _, lines in self.code.threads
                                               for _, word, fields in lines if word in ("jump", "jz")):
            raise CodeFault("code")
        return self.code


def listing_of(code):
    """The listing of a code."""
    lines = [f"code {code.version}", *(f"var {name}" for name in code.vars), *(f"lock {name}" for name in code.locks)]
    for name, thread in code.threads:
        lines.append(f"thread {name} {len(thread)}")
        for weight, word, fields in thread:
            known = {"load": "rx", "store": "xr", "jz": "ri", "movc": "ri", "movr": "rr", "op": "orr", "out": "r"}.get(word, "i" * len(fields))
            shown = [f"r{field}" if kind == "r" else str(field) for kind, field in zip(known, fields)]
            lines.append(" ".join([str(weight), word, *shown]))
    return "".join(line + "\n" for line in lines).encode()


def unobject(name, data):
    """The bytes and the status of `unobject` on a file with a name."""
    if len(data) > 16_777_216:
        return f"too long: {name}\n".encode(), 7
    try:
        return listing_of(ObjectReader(data).read()), 0
    except CodeFault as fault:
        return f"malformed {name}: {fault}\n".encode(), 3


class CodeRun:
    """A run of code, from registers that are all 0, and the schedule that it stands for."""

    def __init__(self, code, memory):
        self.code, self.memory = code, dict(memory)
        self.holders = {lock: None for lock in code.locks}
        self.outputs, self.stayed, self.lifted = [], 0, []
        self.registers = [[0] * 8 for _ in code.threads]
        self.rest = [0] * len(code.threads)

    def step(self, t):
        lines = self.code.threads[t][1]
        if self.rest[t] == len(lines):
            return
        weight, word, fields = lines[self.rest[t]]
        self.lifted += [t] * weight
        registers, after = self.registers[t], self.rest[t] + 1
        if word in ("acquire", "release"):
            if self.holders[fields[0]] != (None if word == "acquire" else t):
                self.stayed += 1
                return
            self.holders[fields[0]] = t if word == "acquire" else None
        elif word == "load":
            registers[int(fields[0])] = self.memory[fields[1]]
        elif word == "store":
            self.memory[fields[0]] = registers[int(fields[1])]
        elif word == "jump":
            after = fields[0]
        elif word == "jz":
            after = after if registers[int(fields[0])] else fields[1]
        elif word == "movc":
            registers[int(fields[0])] = fields[1]
        elif word == "movr":
            registers[int(fields[0])] = registers[int(fields[1])]
        elif word == "op":
            left, right = int(fields[1]), int(fields[2])
            registers[left] = OPERATORS[fields[0]](registers[left], registers[right])
        elif word == "out":
            self.outputs.append(registers[int(fields[0])])
        self.rest[t] = after

    def run(self, schedule):
        for t in schedule:
            self.step(t)
        return self

    def is_done(self, t):
        return self.rest[t] == len(self.code.threads[t][1])

    def stands(self, t):
        return f"pc {self.rest[t]}"


# Reports.

def state_lines(p, *runs):
    """The lines of a report behind its head: variables of each run, and locks, threads and outputs of the first."""
    first = runs[0]
    for name, _, _ in p.vars:
        yield f"var {name} {' '.join(str(run.memory[name]) for run in runs)}"
    for lock in p.locks:
        holder = first.holders[lock.name]
        yield f"lock {lock.name} {'free' if holder is None else p.threads[holder].name}"
    for t, thread in enumerate(p.threads):
        yield f"thread {thread.name} {'done' if first.is_done(t) else first.stands(t)}"
    for word in first.outputs:
        yield f"output {word}"


def run_report(p, run, steps, *head):
    return [*head, f"steps {steps}", f"stayed {run.stayed}", *state_lines(p, run)]


def run_until(p, run, schedule, tree):
    """Runs until an expression holds, and gives the report."""
    for number in range(len(schedule) + 1):
        if number:
            run.step(schedule[number - 1])
        if value_of(tree, run.memory):
            return run_report(p, run, number, f"stopped after {number}")
    return run_report(p, run, len(schedule), "not reached")


def pair_report(p, a, b, schedule, positions=are_alike):
    """Runs two side by side, and gives the report and the status."""
    for number, t in enumerate(schedule, 1):
        a.step(t)
        b.step(t)
        name = difference(p, a, b, positions)
        if name is not None:
            return [f"differ at step {number}: {name}"], 8
    return [f"agree: {len(schedule)} steps", *state_lines(p, a, b)], 0


def drawn(place):
    """What is drawn at a place, by two steps of a linear congruential generator."""
    for _ in range(2):
        place = (1664525 * place + 1013904223) % 2**32
    return place // 65536


def trial_of(p, number):
    """The two starts and the schedule of a numbered trial."""
    left = {name: drawn(512 * number + x) % 4 for x, (name, _, _) in enumerate(p.vars)}
    right = {name: left[name] if is_low(value, left) else drawn(512 * number + 256 + x) % 4 for x, (name, _, value) in enumerate(p.vars)}
    return left, right, [drawn(1_000_000 + 256 * number + j) % len(p.threads) for j in range(200)] if p.threads else []


def refuted(p, trials):
    """Runs trials up to the first whose runs don't agree, and gives the report and the status."""
    fit = 0
    for number in range(1, trials + 1):
        left, right, schedule = trial_of(p, number)
        if bad_start(p, left, right) is not None:
            continue
        fit += 1
        lines, status = pair_report(p, SourceRun(p, left), SourceRun(p, right), schedule)
        if status:
            step = int(lines[0].split()[3].rstrip(":"))
            starts = [f"var {name} {left[name]} {right[name]}" for name, _, _ in p.vars]
            return [f"trial {number}", *lines, *starts, "schedule" + "".join(f" {t}" for t in schedule[:step])], status
    return [f"none of {trials} trials, {fit} fit"], 0


FORMS = {"run": "psk", "run-until": "pske", "pair": "pssk", "refute": "pn"}
MOST = {"p": 1_048_576, "s": 4_194_304, "k": 4_194_304}


def answered(words, files):
    """The lines and the status of `run`, `run-until`, `pair` and `refute`, where the words are a form."""
    form = FORMS[words[0]]
    p, starts, schedule, tree = None, [], [], None
    for kind, word in zip(form, words[1:]):
        if kind in "en":
            continue
        if word not in files:
            return [f"read fault: {word}"], 4
        if len(files[word]) > MOST[kind]:
            return [f"too long: {word}"], 7
        try:
            if kind == "p":
                p = program_of(files[word])
            elif kind == "s":
                starts.append(start_of(files[word], p))
            else:
                schedule = schedule_of(files[word], len(p.threads))
        except Fault as fault:
            return [f"malformed {word}: {fault.kind} at {fault.at}"], 3
        except Malformed as fault:
            return [f"malformed {word}: {fault}"], 3
    if form.endswith("e"):
        try:
            tree, uses = expression_of(words[4].encode())
        except Fault as fault:
            return [f"malformed expression: {fault.kind} at {fault.at}"], 3
        for name, _, at in uses:
            if name not in {x[0] for x in p.vars}:
                return [f"malformed expression: unknown at {at}"], 3
    try:
        rules_of_declarations(p)
    except Refused as refusal:
        return [str(refusal)], 1
    if words[0] == "run":
        return run_report(p, SourceRun(p, starts[0]).run(schedule), len(schedule)), 0
    if words[0] == "run-until":
        return run_until(p, SourceRun(p, starts[0]), schedule, tree), 0
    if words[0] == "refute":
        return refuted(p, int(words[2]))
    name = bad_start(p, *starts)
    if name is not None:
        return [f"bad starts: {name}"], 9
    return pair_report(p, SourceRun(p, starts[0]), SourceRun(p, starts[1]), schedule)


def reply(words, files):
    """The bytes and the status of `run`, `run-until`, `pair` and `refute` on files by name."""
    lines, status = answered(words, files)
    return "".join(line + "\n" for line in lines).encode(), status
