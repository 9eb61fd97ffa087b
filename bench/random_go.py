"""Random programs of the language that gostk runs, and small changes of them, for `against_go`.

A program is made in one pass, as text. What is noted on the way: the names of each block with what they stand for, so that names
are hidden and declared anew; the exact values of constants, so that none is out of range; how often a statement may run, so that
each run is short; and what a call does, so that nothing depends on an order of evaluation that Go leaves open: no call stands
after a read of a package variable that it changes, nor one that shows something after an operation that may panic, unless the
order is fixed.

A kind is `int`, `bool`, the name of a struct, or `[3]T` of another kind; types are written in several ways.
"""
import collections
import random
import re

LEAST, MOST = -(2**63), 2**63 - 1
LEVELS = ["||", "&&", "== != < <= > >=", "+ - | ^", "* / % << >> & &^"]
PRECEDENCE = {op: level for level, ops in enumerate(LEVELS, 1) for op in ops.split()}
NAMES = ["a", "b", "c", "n", "k", "x", "y", "z", "é", "_1", "sum", "true", "println", "len", "nil"]
PREDECLARED = ["len", "cap", "append", "iota", "string", "print", "byte", "min"]
TEXTS = ['"at"', '"a\\tb"', '""', '"\\"q\\\\"', '"é \\u00e9\\xc3\\xa9"', '"\\101\\x42"', '("in")']
ALL = frozenset(["everything"])
OUTSIDE = ["func readInt() (int, bool)", "func exit(code int)"]
SCALARS = ["int", "bool"]
FIELDS = ["a", "x", "y", "n", "len", "T0", "main", "é"]

# A text, how tight its outermost operator binds, its constant, whether that has a type, and whether it is a shift of a constant
# without a type by what is no constant, or an operation on such: Go gives it the type that its place asks for.
Value = collections.namedtuple("Value", "text level constant typed loose", defaults=(None, False, False))


class Refused(Exception):
    """A constant that would not be accepted."""


def folded(op, left, right):
    """What an operator gives of two constants."""
    if op in ("/", "%"):
        if right == 0 or left == LEAST and right == -1:
            raise Refused  # the second one is worked out exactly by gostk, and wraps in Go 1.22
        quotient = abs(left) // abs(right) * (1 if (left < 0) == (right < 0) else -1)
        return quotient if op == "/" else left - quotient * right
    if op in ("<<", ">>") and not 0 <= right <= 140:
        raise Refused
    simple = {
        "+": lambda: left + right, "-": lambda: left - right, "*": lambda: left * right, "&": lambda: left & right,
        "|": lambda: left | right, "^": lambda: left ^ right, "&^": lambda: left & ~right, "<<": lambda: left << right,
        ">>": lambda: left >> right, "==": lambda: left == right, "!=": lambda: left != right, "<": lambda: left < right,
        "<=": lambda: left <= right, ">": lambda: left > right, ">=": lambda: left >= right, "&&": lambda: left and right,
        "||": lambda: left or right,
    }
    return simple[op]()


class Function:
    """A function that can be called: what it takes and gives, and what a call of it does."""

    def __init__(self, name, parameters, results, loud=True, writes=ALL, cost=0, deep=False):
        self.name, self.parameters, self.results, self.deep = name, parameters, results, deep
        self.loud, self.writes, self.cost = loud, writes, cost


class Variable:
    def __init__(self, kind, fixed=False, package=False):
        self.kind, self.fixed, self.package, self.used = kind, fixed, package, False


class Program:
    """One random program. A value is its text with how tight its outermost operator binds."""

    def __init__(self, seed, number, small=False):
        self.random = random.Random(f"{seed}/{number}")
        self.small = small
        self.structs, self.kinds, self.lengths = {}, [], {}
        self.safe, self.heading, self.inside, self.still, self.eager, self.in_body = False, False, 0, False, False, False
        self.names = {}
        self.blocks = [self.names]
        self.reads, self.risky = set(), False
        self.loud, self.writes, self.cost, self.times, self.loops = False, set(), 0, 1, 0
        self.functions, self.own, self.results, self.indent = [], None, [], 0
        self.text = self.whole()

    # Small choices.

    def chance(self, of):
        return self.random.random() < of

    def one(self, items):
        return self.random.choice(list(items))

    def scalar(self):
        return "bool" if self.chance(0.3) else "int"

    def kind(self):
        return self.one(self.kinds) if self.kinds and self.chance(0.3) else self.scalar()

    # Kinds with parts.

    def array(self, kind):
        """The length of an array, and the kind of its elements."""
        length, element = kind[1:].split("]", 1)
        return int(length), element

    def parts(self, kind):
        """What stands behind a value for each of its parts, and the kind of that."""
        if kind in SCALARS:
            return []
        if kind in self.structs:
            return [("." + name, it) for name, it in self.structs[kind]]
        length, element = self.array(kind)
        return [(f"[{index}]", element) for index in range(length)]

    def holds(self, kind, part):
        return kind == part or any(self.holds(it, part) for _, it in self.parts(kind))

    def kinds_in(self, kind):
        """A kind and those of its parts."""
        return {kind}.union(*(self.kinds_in(it) for _, it in self.parts(kind)))

    def array_kind(self):
        """The kind of an array: of one that a name here stands for or has in it, or of any that a literal may have."""
        kinds = {it.kind for block in self.blocks for it in block.values() if isinstance(it, Variable)}
        found = [it for kind in sorted(kinds) for it in sorted(self.kinds_in(kind)) if it[0] == "["]
        if not found or self.chance(0.1):
            return f"[{self.random.randrange(1, 5)}]{self.one(SCALARS + self.kinds)}"
        return self.one(found)

    def scalars_of(self, text, kind):
        """The texts of all ints and bools in a value."""
        if kind in SCALARS:
            return [text]
        return [it for behind, part in self.parts(kind) for it in self.scalars_of(text + behind, part)]

    def spelled(self, kind):
        """A way to write a type."""
        if kind in SCALARS or kind in self.structs:
            return f"({kind})" if self.chance(0.02) else kind
        length, element = self.array(kind)
        ways = [str(length)] * 4 + [f"{length - 1} + 1", f"({length})"]
        ways += [name for name, it in self.lengths.items() if it == length]
        return f"[{self.one(ways)}]{self.spelled(element)}"

    def sees(self, name):
        """What a name stands for here; nothing for one that no block declares."""
        for block in reversed(self.blocks):
            if name in block:
                return block[name]
        return None

    def variables(self, kind, to_write=False):
        names = {name for block in self.blocks for name in block}
        found = [(name, self.sees(name)) for name in sorted(names)]
        return [(name, it) for name, it in found if isinstance(it, Variable) and it.kind == kind and not (to_write and it.fixed)]

    def number(self, value):
        """A way to write a number."""
        digits = str(value)
        if self.chance(0.7):
            return digits
        ways = [hex(value), hex(value).upper().replace("0X", "0X_"), oct(value), bin(value), "0" + oct(value)[2:]]
        if len(digits) > 3:
            ways.append(digits[:-3] + "_" + digits[-3:])
        return self.one(ways)

    # Arrays that aren't worked out.

    def not_run(self, make):
        """What is made for a place that isn't run: no call may stand there, and it neither reads nor panics."""
        before = self.still, set(self.reads), self.risky, self.loud, self.safe
        self.still, self.safe = True, False
        try:
            return make()
        finally:
            self.still, self.reads, self.risky, self.loud, self.safe = before

    def length(self, of=None, depth=1):
        """The length of an array, of which a text and the length are given, or of any; nothing where none may stand here."""
        ways = [it for it in ("len", "len", "cap") if not self.sees(it)]
        if not ways or not self.in_body or self.still and self.chance(0.5):
            return None
        if of is None:
            kind, heading, uses = self.array_kind(), self.heading, self.uses()
            self.heading = False
            of = self.not_run(lambda: self.value(kind, depth)).text, self.array(kind)[0]
            self.heading = heading
            self.use_again(uses)  # a constant may be dropped
        name = self.one(ways)
        name = f"({name})" if self.chance(0.03) else name
        return Value(f"{name}({of[0]})", 9, of[1], True)

    # Constants, worked out exactly.

    def constant(self, kind, depth=3, names=True):
        for _ in range(20):
            try:
                return self.some_constant(kind, self.random.randrange(depth + 1), names)
            except Refused:
                pass
        return Value("1", 9, 1) if kind == "int" else Value("2 > 1", 3, True)

    def some_constant(self, kind, depth, names):
        named = [(name, it) for name, it in self.names.items() if isinstance(it, Value) and self.sees(name) is it]
        named = [(name, it) for name, it in named if isinstance(it.constant, bool) == (kind == "bool")]
        if names and named and self.chance(0.3):
            name, it = self.one(named)
            return Value(name, 9, it.constant, it.typed)
        it = self.length() if kind == "int" and self.chance(0.15) else None
        if it:
            return it
        if depth == 0 or self.chance(0.1):
            if kind == "bool":
                value = self.chance(0.5)
                if self.sees("true") or not value:
                    return Value("1 > 2", 3, False) if self.sees("false") or value else Value("false", 9, False)
                return Value("true", 9, True)
            large = [self.random.getrandbits(32), MOST, 2**63, self.random.getrandbits(127)]
            value = self.one([0, 1, 2, 3, 5, 7, 10, 63, 64, 100, 255] + large)
            return Value(self.number(value), 9, value)
        if self.chance(0.2):
            op = "!" if kind == "bool" else self.one("+-^")
            return self.prefixed(op, self.some_constant(kind, depth - 1, names))
        operands = "int"
        if kind == "bool":
            op = self.one(["==", "!=", "<", "<=", ">", ">=", "&&", "||", "==", "!="])
            if op in ("&&", "||") or op in ("==", "!=") and self.chance(0.3):
                operands = "bool"
        else:
            op = self.one(["+", "-", "*", "/", "%", "&", "|", "^", "&^", "<<", ">>"])
        left = self.some_constant(operands, depth - 1, names)
        if op in ("<<", ">>"):
            count = self.random.randrange(70)
            right = Value(self.number(count), 9, count)
        else:
            right = self.some_constant(operands, depth - 1, names)
        return self.joined(op, left, right)

    def held(self, value):
        """A value where it becomes an int."""
        if value.constant is not None and not isinstance(value.constant, bool) and not LEAST <= value.constant <= MOST:
            raise Refused
        return value

    def prefixed(self, op, it):
        text = it.text if it.level >= 6 and not self.chance(0.1) else f"({it.text})"
        space = " " if text[0] == op and op in "+-" or self.chance(0.05) else ""
        if it.constant is None:
            return Value(op + space + text, 6, loose=it.loose)
        value = {"!": not it.constant, "+": it.constant, "-": -it.constant, "^": ~int(it.constant)}[op]
        return self.in_range(Value(op + space + text, 6, value, it.typed))

    def in_range(self, it):
        if not isinstance(it.constant, bool):
            if not -(2**127) <= it.constant < 2**127 or it.typed and not LEAST <= it.constant <= MOST:
                raise Refused
        return it

    def joined(self, op, left, right):
        level = PRECEDENCE[op]
        before = left.text if left.level >= level and not self.chance(0.1) else f"({left.text})"
        after = right.text if right.level > level and not self.chance(0.1) else f"({right.text})"
        tight = self.chance(0.1) and after[0] not in "+-&^|<>=!" and before[-1] not in "+-"
        text = before + op + after if tight else f"{before} {op}{self.one([' '] * 40 + [chr(10), ' /* and */ '])}{after}"
        if left.constant is None or right.constant is None:
            self.held(left)
            self.held(right)
            free = [it.loose or it.constant is not None and not it.typed for it in (left, right)]
            return Value(text, level, loose=free[0] if op in ("<<", ">>") else level > 3 and all(free))
        typed = left.typed if op in ("<<", ">>") else left.typed or right.typed
        if typed and op not in ("<<", ">>"):
            self.held(left)
            self.held(right)
        value = folded(op, left.constant, right.constant)
        return self.in_range(Value(text, level, value, typed and level not in (3,)))

    # Values.

    def value(self, kind, depth=3):
        """A value of a kind. What it has read and whether it may panic is noted for the calls after it."""
        if self.small:
            depth = min(depth, 2)
        if kind not in SCALARS:
            return self.whole_value(kind, depth)
        if depth <= 0 or self.chance(0.15):
            return self.leaf(kind)
        roll = self.random.random()
        if roll < 0.2:
            called = self.call([kind], depth - 1) if self.chance(0.8) else self.field_of_call(kind, depth - 1)
            if called:
                return called
        if roll < 0.3:
            op = "!" if kind == "bool" else self.one("+-^")
            it = self.value(kind, depth - 1)
            return self.prefixed(op, it) if it.constant is None else it
        if kind == "bool":
            return self.comparison(depth)
        op = self.one(["+", "-", "*", "+", "-", "/", "%", "&", "|", "^", "&^", "<<", ">>"])
        left = self.value("int", depth - 1)
        if op in ("/", "%"):
            right = self.divisor(depth - 1)
        elif op in ("<<", ">>"):
            right = self.count(depth - 1)
        else:
            right = self.value("int", depth - 1)
        if left.constant is not None and right.constant is not None:
            return left
        return self.joined(op, left, right)

    def comparison(self, depth):
        op = self.one(["==", "!=", "<", "<=", ">", ">=", "&&", "||", "&&", "||", "=="])
        if op in ("&&", "||"):
            before = (set(self.reads), self.risky)
            left = self.value("bool", depth - 1)
            self.reads, self.risky = set(before[0]), before[1]
            right = self.value("bool", depth - 1)
            self.reads, self.risky = before
        else:
            kind = self.kind() if op in ("==", "!=") else "int"
            left, right = self.value(kind, depth - 1), self.value(kind, depth - 1)
        if left.constant is not None and right.constant is not None:
            return left if isinstance(left.constant, bool) else self.leaf("bool")
        return self.joined(op, left, right)

    def divisor(self, depth):
        it = self.length() if self.chance(0.06) else None
        if it:
            return it
        roll = self.random.random()
        if roll < 0.4:
            value = self.one([1, 2, 3, 7, 10, MOST, self.random.randrange(1, 2**40)])
            it = Value(self.number(value), 9, value)
            return self.prefixed("-", it) if self.chance(0.3) else it
        it = self.value("int", depth)
        if roll < 0.92 or self.safe:
            one = Value("1", 9, 1)
            return one if it.constant is not None else self.joined("|", it, one)
        self.panics()
        return it if it.constant is None else Value("1", 9, 1)

    def count(self, depth):
        it = self.length() if self.chance(0.06) else None
        if it:
            return it
        roll = self.random.random()
        if roll < 0.4:
            value = self.one([0, 1, 2, 31, 62, 63, 64, 65, 200, 1000, MOST])
            return Value(self.number(value), 9, value)
        before = self.uses()
        it = self.value("int", depth)
        if it.constant is not None or it.loose:
            self.use_again(before)
            return Value("3", 9, 3)
        if roll < 0.94 or self.safe:
            mask = self.one([7, 63, 127, MOST])
            return self.joined("&", it, Value(self.number(mask), 9, mask))
        self.panics()
        return it

    def panics(self):
        self.risky = True
        self.loud = True

    def leaf(self, kind):
        found = self.place(kind) if self.chance(0.75) else None
        if found:
            return Value(found[0], 9)
        it = self.length() if kind == "int" and self.chance(0.2) else None
        if it:
            return it
        for _ in range(5):
            it = self.constant(kind, 2)
            if isinstance(it.constant, bool) or LEAST <= it.constant <= MOST:
                return it
        return Value("4", 9, 4)

    def read(self, name, variable):
        variable.used = True
        if variable.package:
            self.reads.add(name)

    def place(self, kind, to_write=False):
        """The text of a variable of a kind, or of a part of one, with its name; it is noted as read, or as written."""
        names = sorted({name for block in self.blocks for name in block})
        found = [(name, self.sees(name)) for name in names]
        found = [it for it in found if isinstance(it[1], Variable) and self.holds(it[1].kind, kind)]
        found = [it for it in found if not (to_write and it[1].fixed)]
        if not found:
            return None
        name, variable = self.one(found)
        if not to_write:
            self.read(name, variable)
        elif variable.package and self.writes is not ALL:
            self.writes = self.writes | {name}
        text, here = name, variable.kind
        while here != kind:
            text, here = self.one([(text + behind, part) for behind, part in self.parts(here) if self.holds(part, kind)])
            if text.endswith("]"):
                before, index = text.rsplit("[", 1)
                length = len(self.parts(self.kind_of(variable.kind, before[len(name):])))
                text = f"{before}[{self.index(int(index[:-1]), length, before)}]"
        return text, name

    def kind_of(self, kind, behind):
        """The kind of the part that a text behind a value of a kind leads to; indices may be any values."""
        while behind:
            if behind[0] == ".":
                name = re.match(r"\.(\w+)", behind).group(1)
                kind, behind = dict(self.structs[kind])[name], behind[len(name) + 1:]
            else:
                depth = 0
                for end, it in enumerate(behind):
                    depth += (it == "[") - (it == "]")
                    if depth == 0:
                        break
                kind, behind = self.array(kind)[1], behind[end + 1:]
        return kind

    def index(self, number, length, array):
        """An index of an array: this number, or an int of which some bits may count, or one that may be out of range."""
        if self.chance(0.1):
            own = (array, length) if self.chance(0.7) and "(" not in array else None
            it = self.length(own, 0) if own or self.inside < 2 else None
            if it:
                away, space = number - it.constant, self.one(["", " "])
                return it.text + (f"{space}{'-+'[away > 0]}{space}{abs(away)}" if away else "")
        roll = self.random.random()
        if roll < 0.5 or self.times > 200 or self.inside > 1:
            return self.number(number)
        before = self.uses()
        self.inside += 1
        it = self.eager and self.chance(0.5) and self.call(["int"], 0) or self.value("int", 1)
        self.inside -= 1
        if it.constant is not None:
            self.use_again(before)
            return self.number(number)
        if self.still and not self.safe and self.chance(0.6):
            return it.text
        if roll < 0.96 or self.safe:
            mask = max(2**bits - 1 for bits in range(4) if 2**bits <= length)
            return self.joined("&", it, Value(self.number(mask), 9, mask)).text
        self.panics()
        limit = self.one([length, length + 1])
        return self.joined("%", it, Value(self.number(limit), 9, limit)).text

    def whole_value(self, kind, depth):
        """A value with parts: a variable, a part of one, what a call gives, or a literal."""
        roll = self.random.random()
        if roll < 0.25 and depth > 0:
            called = self.call([kind], depth - 1)
            if called:
                return called
        found = self.place(kind) if roll < 0.75 else None
        if found:
            return Value(found[0], 9)
        text = self.literal(kind, depth)
        closed = self.heading and (kind in self.structs or self.chance(0.3))
        return Value(f"({text})" if closed or self.chance(0.05) else text, 9)

    def literal(self, kind, depth, bare=False):
        begin = "" if bare else kind if kind in self.structs else self.spelled(kind)
        if kind in self.structs:
            fields = list(self.structs[kind])
            keyed = depth <= 0 or self.chance(0.4)
            if keyed:
                fields = self.random.sample(fields, self.random.randrange(len(fields) + 1) if depth > 0 else 0)
            kinds = [it for _, it in fields]
            keys = [name + self.one([":", ": "]) if keyed else "" for name, _ in fields]
        else:
            length, element = self.array(kind)
            kinds = [element] * (self.random.randrange(length + 1) if depth > 0 else 0)
            keys = [""] * len(kinds)
        texts = []
        for key, it in zip(keys, kinds):
            if kind not in self.structs and it not in SCALARS and self.chance(0.6):
                texts.append(self.literal(it, depth - 1, True))
            else:
                texts.append(key + self.held(self.value(it, depth - 1)).text)
        return begin + "{" + ", ".join(texts) + ("," if texts and self.chance(0.1) else "") + "}"

    def field_of_call(self, kind, depth):
        """A field of what a call gives."""
        found = [(name, fields) for name, fields in self.structs.items() if kind in [it for _, it in fields]]
        if not found:
            return None
        name, fields = self.one(found)
        it = self.call([name], depth)
        return it and Value(it.text + "." + self.one([field for field, of in fields if of == kind]), 9)

    def in_header(self, kind, depth=3):
        """A value before the brace of a block, where a literal stands in parentheses."""
        before, self.heading = self.heading, True
        try:
            return self.value(kind, depth)
        finally:
            self.heading = before

    def call(self, results, depth):
        """A call that gives these kinds, where one may stand here: its effects may not come before what stands to its left."""
        if self.still:
            return None
        fitting = [it for it in self.functions + ([self.own] if self.own else []) if [kind for _, kind in it.results] == results]
        fitting = [it for it in fitting if self.sees(it.name) is it and self.cost + self.times * (it.cost + 5) <= 4000]
        if self.times > 1 or self.calls_left <= 0 or not self.may_recur:
            fitting = [it for it in fitting if it is not self.own]
        if self.risky:
            fitting = [it for it in fitting if not it.loud]
        if self.reads:
            fitting = [it for it in fitting if it.writes is not ALL and not self.reads & it.writes]
        if not fitting:
            return None
        it = self.one(fitting)
        self.calls_left -= it is self.own
        before = (set(self.reads), self.risky)
        arguments = self.arguments(it, depth)
        self.reads, self.risky = before
        self.loud = self.loud or it.loud
        self.writes = ALL if it.writes is ALL or self.writes is ALL else self.writes | it.writes
        self.cost += self.times * (it.cost + 5)
        return Value(f"{it.name}({arguments})", 9)

    def arguments(self, it, depth):
        if len(it.parameters) > 1 and not it.deep and self.chance(0.3):
            several = self.call([kind for _, kind in it.parameters], 0)
            if several:
                return several.text
        texts = []
        for index, (_, kind) in enumerate(it.parameters):
            if it.deep and index == 0:
                texts.append("depth - 1" if it is self.own else str(self.random.randrange(5)))
            else:
                texts.append(self.value(kind, min(depth, 1)).text)
        return ", ".join(texts)

    def uses(self):
        """Which variables the text uses by now; Go refuses a program with one that is not used."""
        return [(it, it.used) for block in self.blocks for it in block.values() if isinstance(it, Variable)]

    def use_again(self, uses):
        """What was used before a part that is dropped."""
        for it, used in uses:
            it.used = used

    def statement_begins(self):
        self.reads, self.risky = set(), False

    # Statements. Each gives its lines.

    def line(self, text):
        comment = self.one([""] * 60 + [" // " + self.one(["a note", '"', "/*"]), ";"])
        return ["\t" * self.indent + text + comment]

    def body(self, depth, first=()):
        """The lines of a block, whose variables are all used at its end."""
        self.blocks.append({})
        self.indent += 1
        lines = list(first)
        for _ in range(self.random.randrange(1, 3 if self.small else 5)):
            lines += self.statement(depth)
        self.indent -= 1
        block = self.blocks.pop()
        self.indent += 1
        for name, it in block.items():
            if isinstance(it, Variable) and not it.used:
                lines += self.line(f"_ = {name}")
        self.indent -= 1
        return lines

    def statement(self, depth):
        self.statement_begins()
        self.cost += self.times
        ways = [self.declares] * 3 + [self.assigns] * 5 + [self.updates] * 3 + [self.prints] * 2 + [self.calls] * 2
        if depth > 0:
            ways += [self.chooses] * 3 + [self.block]
        if depth > 0 and self.times < 30:
            ways += [self.counts, self.ranges, self.waits] + [self.goes_over] * 3
        if self.chance(0.05):
            ways = [self.ends]
        used = self.uses()
        for _ in range(5):
            self.statement_begins()
            blocks = list(self.blocks)
            saved = [dict(block) for block in blocks], self.indent, self.times, self.loops
            try:
                lines = self.one(ways)(depth)
            except Refused:
                lines = []
            if lines:
                return lines
            kept, self.indent, self.times, self.loops = saved
            self.blocks = blocks
            for block, names in zip(blocks, kept):
                block.clear()
                block.update(names)
            self.use_again(used)
        return []

    def fresh(self, count):
        """Names that a block may declare, each once; some that no other place here needs stand for predeclared ones."""
        names = self.random.sample(NAMES[:11] + (NAMES[11:] if self.chance(0.1) else []), count)
        return [name for name in names if name != "println" or self.indent > 2]

    def values(self, kinds):
        """Values for these kinds, or one call that gives all of them."""
        if len(kinds) > 1 and self.chance(0.4):
            it = self.call(kinds, 1)
            if it:
                return it.text
        return ", ".join(self.held(self.value(kind)).text for kind in kinds)

    def declares(self, depth):
        block = self.blocks[-1]
        names = self.fresh(self.one([1, 1, 1, 2, 2, 3]))
        new = [name for name in names if name not in block]
        if not new:
            return []
        if self.chance(0.5):
            mine = [name for name in names if name in new or isinstance(block[name], Variable) and not block[name].fixed]
            kinds = [self.kind() if name in new else block[name].kind for name in mine]
            sides = list(mine)
            if len(new) > 1 and mine[-1] in new and self.chance(0.2):
                sides[-1] = "_"
            text = f"{', '.join(sides)} := {self.values(kinds)}"
        else:
            mine = sides = new
            kinds = [self.kind()] * len(new)
            way = self.random.random()
            if way < 0.35:
                text = f"var {', '.join(new)} {self.spelled(kinds[0])}"
            elif way < 0.7:
                text = f"var {', '.join(new)} {self.spelled(kinds[0])} = {self.values(kinds)}"
            elif way < 0.8:
                text = f"var ({new[0]} {self.spelled(kinds[0])})"
                mine = sides = new[:1]
            else:
                kinds = [self.kind() for _ in new]
                text = f"var {', '.join(new)} = {self.values(kinds)}"
        lines = self.line(text)
        for name, side, kind in zip(mine, sides, kinds):
            if side != "_" and name not in block:
                block[name] = Variable(kind)
        return lines

    def assigns(self, depth):
        kinds = [self.kind() for _ in range(self.one([1, 1, 1, 2, 2, 3]))]
        sides = []
        for kind in kinds:
            found = self.place(kind, to_write=True) if self.chance(0.92) else None
            sides.append(found or ("_", "_"))
            self.safe = self.risky
        texts = [text for text, _ in sides]
        try:
            if len(kinds) > 1 and self.chance(0.4) and "_" not in texts and "(" not in "".join(texts):
                mine = self.random.sample(range(len(sides)), len(sides))
                if [kinds[index] for index in mine] == kinds:
                    for index in mine:
                        self.read(sides[index][1], self.sees(sides[index][1]))
                    return self.line(f"{', '.join(texts)} = {', '.join(texts[index] for index in mine)}")
            return self.line(f"{', '.join(texts)} = {self.values(kinds)}")
        finally:
            self.safe = False

    def updates(self, depth):
        found = self.place("int", to_write=True)
        if not found:
            return []
        text, name = found
        self.read(name, self.sees(name))
        if self.chance(0.3):
            return self.line(text + self.one(["++", "--"]))
        op = self.one(["+", "-", "*", "/", "%", "&", "|", "^", "&^", "<<", ">>"])
        self.safe = self.risky
        right = self.divisor(2) if op in "/%" else self.count(2) if op in ("<<", ">>") else self.held(self.value("int", 2))
        self.safe = False
        return self.line(f"{text} {op}= {right.text}")

    def prints(self, depth):
        if self.sees("println"):
            return []
        self.loud = True
        texts = []
        for _ in range(self.random.randrange(4)):
            texts.append(self.one(TEXTS) if self.chance(0.15) else self.value(self.scalar(), 2).text)
        name = "println" if self.chance(0.85) or self.sees("print") else "print"
        return self.line(f"{name}({', '.join(texts)})")

    def calls(self, depth):
        results = self.one([it.results for it in self.functions] or [[]])
        it = self.call([kind for _, kind in results], 2)
        return self.line(self.one([it.text] * 5 + [f"({it.text})"])) if it else []

    def ends(self, depth):
        """What leaves the function, the loop or the program, behind a condition."""
        condition = self.in_header("bool", 2).text
        self.statement_begins()
        ways = ["return"] + ["break", "continue"] * 2 * (self.loops > 0)
        if self.chance(0.3):
            ways = ["panic", "exit"]
        way = self.one(ways)
        if way == "return":
            way = self.gives()
        elif way == "panic":
            self.loud = True
            way = f"panic({self.one(TEXTS) if self.chance(0.4) else self.held(self.value(self.scalar(), 1)).text})"
        elif way == "exit":
            self.loud = True
            way = f"exit({self.held(self.value('int', 1)).text})"
        return self.line(f"if {condition} {{") + ["\t" * (self.indent + 1) + way] + self.line("}")

    def gives(self):
        """A return of the function."""
        self.statement_begins()
        if not self.results:
            return "return"
        named = all(name != "" for name, _ in self.results)
        if named and self.chance(0.5) and all(self.sees(name) is self.blocks[1].get(name) for name, _ in self.results):
            return "return"
        return f"return {self.values([kind for _, kind in self.results])}"

    def block(self, depth):
        return self.line("{") + self.body(depth - 1) + self.line("}")

    def header(self):
        """The init statement of an `if`, with the names that it declares."""
        roll = self.random.random()
        if roll < 0.6:
            return "", {}
        if roll < 0.8:
            name, kind = self.one(NAMES[:11]), self.kind()
            text = f"{name} := {self.in_header(kind, 2).text}; "
            return text, {name: Variable(kind)}
        self.heading = True
        made = self.updates(0) if roll < 0.9 else self.calls(0)
        self.heading = False
        return (made[0].strip().split(" //")[0].rstrip(";") + "; ", {}) if made else ("", {})

    def chooses(self, depth):
        first, names = self.header()
        self.statement_begins()
        self.blocks.append(names)
        lines = ["\t" * self.indent + f"if {first}{self.in_header('bool').text} {{"] + self.body(depth - 1)
        while self.chance(0.3):
            self.statement_begins()
            lines += ["\t" * self.indent + f"}} else if {self.in_header('bool', 2).text} {{"] + self.body(depth - 1)
        if self.chance(0.4):
            lines += ["\t" * self.indent + "} else {"] + self.body(depth - 1)
        unused = [name for name, it in names.items() if not it.used]
        self.blocks.pop()
        lines[1:1] = ["\t" * (self.indent + 1) + f"_ = {name}" for name in unused]
        return lines + self.line("}")

    def loop(self, depth, rounds, names, first=()):
        """The body of a loop of so many rounds."""
        saved = self.times, self.loops
        self.times, self.loops = self.times * max(rounds, 1), self.loops + 1
        self.blocks.append(names)
        lines = self.body(depth - 1, first)
        self.blocks.pop()
        self.times, self.loops = saved
        return lines

    def counts(self, depth):
        """A loop of three parts, whose variable its body changes at most in its own direction."""
        rounds, name, up = self.random.randrange(5), self.one(NAMES[:11]), self.chance(0.6)
        steps = ["%s++", "%s += 1", "%s += 2"] if up else ["%s--", "%s -= 1", "%s, _ = %s-1, 0"]
        step = self.one(steps).replace("%s", name)
        names = {name: Variable("int", fixed=True)}
        self.blocks += [names] if up else []
        it = self.length() if self.chance(0.4) else None
        rounds, limit = (it.constant, it.text) if it else (rounds, str(rounds))
        names[name].used = False
        self.blocks = self.blocks[:-1] if up else self.blocks
        begin, test = (f"{name} := 0", f"{name} < {limit}") if up else (f"{name} := {limit}", f"{name} > 0")
        if self.chance(0.3):
            self.blocks.append(names)
            self.times *= rounds + 1
            if self.chance(0.5):
                it = self.in_header("bool", 2)
                test += f" && {it.text}" if it.level > 1 else f" && ({it.text})"
            self.times //= rounds + 1
            self.blocks.pop()
        more = ["\t" * (self.indent + 1) + name + ("++" if up else "--")] if self.chance(0.2) else []
        stop = []
        if self.chance(0.2):
            stop = ["\t" * (self.indent + 1) + f"if !({test}) {{ break }}"]
            test = ""
        head = ["\t" * self.indent + f"for {begin}; {test}; {step} {{"]
        return head + self.loop(depth, rounds, names, stop + more) + self.line("}")

    def ranges(self, depth):
        limit = self.in_header("int", 2)
        if limit.constant is None:
            limit = self.joined(self.one(["&", "%"]), limit, Value("4", 9, 4))
        else:
            value = self.random.randrange(-2, 5)
            limit = Value(str(value), 9, value)
        found = self.variables("int", to_write=True)
        way, names = self.random.randrange(4), {}
        if way == 0 and found:
            name, it = self.one(found)
            if it.package and self.writes is not ALL:
                self.writes = self.writes | {name}
            left = name + " = "
        elif way == 1:
            left = self.one(["", "_ = "])
        else:
            name = self.one(NAMES[:11])
            names, left = {name: Variable("int")}, name + " := "
        lines = ["\t" * self.indent + f"for {left}range {limit.text} {{"] + self.loop(depth, 4, names)
        lines[1:1] = ["\t" * (self.indent + 1) + f"_ = {name}" for name, it in names.items() if not it.used]
        return lines + self.line("}")

    def goes_over(self, depth):
        """A `range` over an array, which is worked out where its elements are wanted."""
        kind, first = self.array_kind(), []
        length, element = self.array(kind)
        name, both = self.one(NAMES[:11]), self.chance(0.65)
        if name not in self.blocks[-1] and self.chance(0.4):
            first = self.line(f"{name} := {self.literal(kind, 2)}")
            self.blocks[-1][name] = Variable(kind)
            self.statement_begins()
        whole = self.gone_over(kind) if both else self.not_run(lambda: self.gone_over(kind))
        self.statement_begins()
        if self.chance(0.65):
            left, names = self.new_sides(element, both)
        else:
            left, names = self.old_sides(element, both, length), {}
        lines = ["\t" * self.indent + f"for {left}range {whole.text} {{"]
        lines += self.loop(depth, length, names, self.writes_back(whole.text, kind, names, both))
        lines[1:1] = ["\t" * (self.indent + 1) + f"_ = {name}" for name, it in names.items() if not it.used]
        return first + lines + self.line("}")

    def gone_over(self, kind):
        """The array of a `range`: more often than elsewhere a variable, a part of one, or what comes of a call."""
        roll = self.random.random()
        found = self.place(kind) if roll < 0.5 else None
        if found:
            return Value(found[0], 9)
        called = roll > 0.7 and (self.call([kind], 1) or self.field_of_call(kind, 1))
        # Go's compiler works out what has a literal in it even where the language says that it isn't worked out.
        self.safe = self.safe or self.still
        return called or self.in_header(kind, 2)

    def new_sides(self, element, both):
        """New variables on the left of a `range` over an array, and what they are; the first one is that of the index."""
        if not both and self.chance(0.25):
            return "", {}
        first, second = self.random.sample(NAMES[:11], 2)
        if not both:
            return self.one([f"{first} := ", f"{first} := ", f"{first}, _ := "]), {first: Variable("int")}
        if self.chance(0.3):
            return f"_, {second} := ", {second: Variable(element)}
        return f"{first}, {second} := ", {first: Variable("int"), second: Variable(element)}

    def old_sides(self, element, both, length):
        """Variables and parts of them on the left of a `range` over an array; their indices are worked out each time."""
        times, self.times, self.eager = self.times, self.times * length, True
        sides = []
        for kind in ["int", element][: 1 + both]:
            found = self.place(kind, to_write=True) if self.chance(0.85) else None
            sides.append(found[0] if found else "_")
            self.safe = self.risky
        self.times, self.safe, self.eager = times, False, False
        if both and sides[1] == "_":
            raise Refused  # the array isn't worked out then
        return ", ".join(sides) + ("" if both or self.chance(0.7) else ", _") + " = "

    def writes_back(self, text, kind, names, both):
        """Lines for the body of a `range` over an array, which may change the array that it goes over."""
        root, (length, element) = re.match(r"\w*", text)[0], self.array(kind)
        it = self.sees(root)
        if not re.fullmatch(r"\w+(\.\w+|\[\d+\])*", text) or self.chance(0.5) or root in names or len(names) < 2:
            return []
        if not isinstance(it, Variable) or it.fixed:
            return []
        if it.package and self.writes is not ALL:
            self.writes = self.writes | {root}
        index, value = names
        ways = [f"{text}[{length - 1} - {index}] = {value}", f"{text}[{index}] = {value}"]
        ways += [f"{text}[{length - 1}-{index}] += {value}", f"{text}[0] = {index}", f"{value}++"] if element == "int" else []
        way = self.one(ways)
        for name, variable in names.items():
            variable.used = name in re.findall(r"(?<![.\w])\w+", way)
        return ["\t" * (self.indent + 1) + way]

    def waits(self, depth):
        """A loop by a condition, or without one; its counter falls as a round begins."""
        rounds, name = self.random.randrange(1, 5), self.one(NAMES[:11])
        if name in self.blocks[-1]:
            return []
        lines = self.line(f"{name} := {rounds}")
        self.blocks[-1][name] = it = Variable("int", fixed=True)
        it.used = True
        inner = "\t" * (self.indent + 1)
        fall = [inner + name + "--"]
        if self.chance(0.5):
            lines.append("\t" * self.indent + self.one([f"for {name} > 0 {{", f"for ; {name} > 0; {{"]))
            lines += self.loop(depth, rounds, {}, fall)
        else:
            stop = [inner + f"if {name} <= 0 {{"] + [inner + "\tbreak"] + [inner + "}"]
            lines.append("\t" * self.indent + self.one(["for {", "for ; ; {"]))
            lines += self.loop(depth, rounds, {}, stop + fall)
        return lines + self.line("}")

    # Declarations.

    def function(self, index, head=None):
        name, parameters, results, deep = head or self.head(index)
        own = Function(name, parameters, results, deep=deep)
        self.names[name] = own
        self.blocks = [self.names, {it: Variable(kind) for it, kind in parameters + results if it not in ("_", "", "depth")}]
        self.blocks[1].update({"depth": Variable("int", fixed=True)} if deep else {})
        for it in self.blocks[1].values():
            it.used = True
        self.loud, self.writes, self.cost, self.times, self.loops, self.indent = False, frozenset(), 0, 1, 0, 0
        self.own, self.results, self.calls_left, self.may_recur = (own if deep else None), results, 2, deep
        first = []
        if deep:
            self.indent, self.may_recur = 1, False
            first = ["\tif depth <= 0 {", "\t\t" + self.gives(), "\t}"]
            self.indent, self.may_recur = 0, True
            self.loud, self.writes = True, ALL
        lines = self.body_of_function(first)
        self.may_recur = False
        gives = self.shown(results)
        gives = f" ({gives})" if len(results) > 1 or results and results[0][0] else " " + gives if results else ""
        own.loud, own.writes = self.loud, self.writes
        own.cost = self.cost * (30 if deep else 1)
        self.own = None
        self.functions.append(own)
        return [f"func {name}({self.shown(parameters)}){gives} {{"] + lines + ["}", ""]

    def shown(self, its):
        """Parameters or results, some in groups."""
        texts = []
        for index, (name, kind) in enumerate(its):
            grouped = name and index + 1 < len(its) and its[index + 1][1] == kind and self.chance(0.5)
            texts.append(name if grouped else f"{name} {self.spelled(kind)}".strip())
        return ", ".join(texts)

    def body_of_function(self, first):
        """The lines of a body, in the block of the parameters."""
        self.indent = 1
        lines = list(first)
        for _ in range(self.random.randrange(1, 4 if self.small else 7)):
            lines += self.statement(1 if self.small else 3)
        if self.results:
            self.statement_begins()
            tail = self.gives()
            if self.chance(0.2):
                self.statement_begins()
                condition = self.in_header("bool", 2).text
                tail = f"if {condition} {{ {self.gives()} }} else {{ {tail} }}"
        for name, it in self.blocks[1].items():
            if isinstance(it, Variable) and not it.used:
                lines.append(f"\t_ = {name}")
        return lines + (["\t" + tail] if self.results else [])

    def head(self, index):
        names = self.random.sample(NAMES[:11], 6)
        deep = self.chance(0.25)
        parameters = [("depth", "int")] * deep + [(name, self.kind()) for name in names[: self.random.randrange(4)]]
        if not deep and parameters and self.chance(0.1):
            parameters[0] = ("_", parameters[0][1])
        results = [(name, self.kind()) for name in names[3 : 3 + self.one([0, 1, 1, 1, 2, 2, 3])]]
        if results and self.chance(0.1):
            parameters = [("", kind) for _, kind in parameters] if not deep else parameters
        if self.chance(0.6):
            results = [("", kind) for _, kind in results]
        return f"f{index}", parameters, results, deep

    def types(self):
        """Structs, of which each may hold those before it, the kinds of variables, and names of lengths."""
        if self.chance(0.2):
            self.kinds = [f"[{self.random.randrange(1, 5)}]{self.scalar()}"] * self.random.randrange(2)
            return []
        self.lengths = {"L2": 2, "L3": 3} if self.chance(0.5) else {}
        groups = [["const L3 = L2 + 1"], ["const L2 int = 2"]] if self.lengths else []
        for index in range(self.random.randrange(1, 3 if self.small else 4)):
            names = self.random.sample(FIELDS, self.random.randrange(1, 5))
            fields = [(name, self.kind() if self.chance(0.7) else self.scalar()) for name in names]
            if len(self.scalars_of("", f"[1]{fields[0][1]}")) > 8:
                fields[0] = (fields[0][0], "int")
            self.structs[f"T{index}"] = fields
            self.kinds.append(f"T{index}")
            if self.chance(0.7):
                self.kinds.append(f"[{self.random.randrange(1, 5)}]{self.one(SCALARS + self.kinds)}")
            shown = self.shown_fields(fields)
            form = self.one(["type T%d struct { %s }", "type T%d struct {\n\t%s\n}", "type ( T%d struct { %s } )"])
            groups.append([form % (index, shown)])
        while sum(len(self.scalars_of("", kind)) for kind in self.kinds) > 60:
            self.kinds.remove(max(self.kinds, key=lambda kind: len(self.scalars_of("", kind))))
        return groups

    def shown_fields(self, fields):
        texts = []
        for index, (name, kind) in enumerate(fields):
            grouped = index + 1 < len(fields) and fields[index + 1][1] == kind and self.chance(0.5)
            texts.append(name + (", " if grouped else f" {self.spelled(kind)}; "))
        return "".join(texts).rstrip("; ")

    def package(self):
        """Constants, types and package variables, in some order."""
        groups, names = self.types(), [f"C{index}" for index in range(6)] + self.random.sample(PREDECLARED, 2 * self.chance(0.2))
        for name in names[self.random.randrange(5):]:
            kind = self.scalar()
            it = self.constant(kind, 4)
            typed = self.chance(0.3) and (kind == "bool" or LEAST <= it.constant <= MOST)
            self.names[name] = Value(name, 9, it.constant, typed or it.typed)
            groups.append([f"const {name}{' ' + kind if typed else ''} = {it.text}"])
            if self.chance(0.2):
                first, second = self.constant(kind, 1), self.constant("bool", 1)
                self.names["D" + name] = Value("D" + name, 9, first.constant, first.typed)
                self.names["E" + name] = Value("E" + name, 9, second.constant, second.typed)
                form = self.one(["const D%s, E%s = %s, %s", "const (D%s, E%s = %s, %s)", "const D%s, _, E%s = %s, 1, %s"])
                groups.append([form % (name, name, first.text, second.text)])
        package = {}
        names = [f"v{index}" for index in range(5)] + PREDECLARED[:2]
        for name in self.random.sample(names, self.random.randrange(1, 3 if self.small else 6)):
            kind = self.kind()
            if name in self.names:
                continue
            package[name] = variable = Variable(kind, package=True)
            variable.used = True
            if kind not in SCALARS:
                groups.append([self.one(["var %s %s", "var (%s %s)", "var %s, _ %s"]) % (name, self.spelled(kind))])
                continue
            it = self.constant(kind, 3)
            if not kind == "bool" and not LEAST <= it.constant <= MOST or self.chance(0.3):
                groups.append([self.one(["var %s %s", "var (%s %s)", "var %s, _ %s"]) % (name, kind)])
            else:
                groups.append([f"var {name}{self.one(['', ' ' + kind])} = {it.text}"])
        if self.chance(0.2):
            groups += [["func _(int) int { return 3 }"], ["var _ = 1 << 62"], ["const _, _ = 1 << 100, !(1 > 2)"]]
        self.names.update(package)
        return groups

    def whole(self):
        groups = self.package()
        self.in_body = True
        count = self.random.randrange(2, 3 if self.small else 6)
        for index in range(count):
            groups.append(self.function(index))
        entries = []
        for number in range(1 if self.small else self.random.randrange(2, 6)):
            groups.append(self.function(f"Entry{number}", (f"entry{number}", [("given", "int"), ("good", "bool")], [], False)))
            entries.append(f"entry{number}")
        self.inputs = len(entries)
        shown = [text for name, it in self.names.items() if isinstance(it, Variable) for text in self.scalars_of(name, it.kind)]
        shown += [name for name, it in self.names.items() if isinstance(it, Value) and LEAST <= it.constant <= MOST]
        lines = ["func main() {", "\twhich, _ := readInt()"]
        for number, name in enumerate(entries):
            lines += [f"\tif which == {number} {{", f"\t\t{name}(readInt())", "\t}"]
        lines += [f"\tprintln({', '.join(shown)})", "}", ""]
        groups.append(lines)
        self.random.shuffle(groups)
        groups += [[line] for line in OUTSIDE]
        return "package main\n\n" + self.laid_out("\n".join(line for group in groups for line in group)) + "\n"

    def laid_out(self, text):
        """The text with some ends of lines written in other ways that mean the same."""
        lines = text.split("\n")
        out = lines[0]
        for before, line in zip(lines, lines[1:]):
            joint, last = "\n", before.rstrip()[-1:]
            if self.chance(0.04) and "//" not in before and before not in OUTSIDE and line not in OUTSIDE:
                if last == "{":
                    joint = self.one([" ", "\n\n", "\r\n", " /* a\n b */ "] + [";"] * ("struct" not in before))
                elif re.match(r"[\w)}\"]", last) or before.endswith(("++", "--")):
                    empty = [";;\n"] * (before[0] == "\t" and line != "}")
                    joint = self.one(["; ", "\r\n", " /* a\n b */ ", " /* a */ // b\n"] + empty)
            out += joint + line
        return out


# Changes.

TOKEN = re.compile(
    r'\s+|//[^\n]*|/\*.*?\*/|"(?:\\.|[^"\\])*"|\w+|&\^=|<<=|>>=|&\^|<<|>>|:=|\+\+|--|&&|\|\||[-+*/%&|^=!<>]=|.', re.S)
OPERATORS = list(PRECEDENCE) + ["!", "=", ":=", "+=", "<<=", "++", "--", ",", ";", ".", "[", "]", "{", "}", ":"]
KEYWORDS = "break const continue else for func if package range return struct type var".split()
WORDS = [
    "int", "bool", "true", "nil", "_", "println", "panic", "main", "0", "1", "-1", "u", "9223372036854775808", '"s"', "C0", "v0",
    "f0", "f1", "entry0", "f0()", "f1(1)", "1 << 64", "x", "a", "readInt()", "1 == 1", "given", "good", "depth", "T0", "T1",
    "T0{}", "[2]int", "[2]T0{}", "v0.a", "v0[1]", "L2", "len", "cap", "len(a)", "cap(v0)", "len([2]T0{})", "[3]int{given}",
]
STATEMENTS = [
    "break", "continue", "return", "return 1", "return true, 2", "x := 1", "var x int", "var x, y bool = true, 1", "x = 1",
    "f0()", "1", "a++", "good++", "a, good = good, a", "for { }", "for { break }", "for true { }", "panic(1)",
    "if good { return }", "given += true", "_ = nil", "given := 2", "given, k := 2, 3", "{ return 1 }",
    "for i, _ := range 3 { _ = i }", "for given = range good { }", "_ := 1", "exit(1, 2)", "for _ := range 3 { }", "if given { }",
    "println(f0)", "println(int)", "C0 = 1", "f0 = 1", "good = 1 < 2", "given <<= good", "good <<= 1", "given = 1 / 0",
    "given %= 0", "given = 1 << -1", "const x = 1", "var C0, C1 = C0, C1", "println(readInt())", "for x := range 3 { x = true }",
    "p := T0{}", "p := T0{1}", "p := T0{1, true}", "p := T0{a: 1, x: 2}", "p := T0{x: 1, x: 2}", "p := T0{a: 1, 2}",
    "println(T0{})", "panic(T0{})", "var p, q T0", "var a [2]int", "var a [given]int", "var a [0]T0", "a := [2]int{1, 2, 3}",
    "a := [2]T0{{}, {}}", "a := [2][1]int{{1}, {2}}; a[given&1][0]++", "a := [2]int{{1}, 2}", "_ = T0{} == T0{}",
    "_ = [1]int{} == [2]int{}", "_ = [2]int{} == [1 + 1]int{}", "_ = T0{} < T0{}", "_ = T0{} == T1{}", "var a [3]int; a[3] = 1",
    "var a [3]int; a[-1]++", "var a [3]int; a[given] = true", "var a [3]bool; a[true] = good", "var a [3]int; a[1 << 70]++",
    "f0().x = 1", "T0{}.a = 1", "var p T0; p.a, p.x = p.x, p.a", "var p T0; p.a.a = 1", "given.x = 1", "given[0] = 1", "f0.x = 1",
    "T0.a = 1", "if T0{} == T0{} { }", "if (T0{}) == (T0{}) { }", "for _, p := 0, T0{}; good; { _ = p; break }", "_ = T0{}.a",
    "_ = T0{}.zz", "var p T0; p = T1{}", "_ = int{}", "_ = given{1}", "var T0 int; _ = T0{}", "var a [2]int; a.x = 1",
    "var a [2]int; _ = a == nil", "_ = -T0{}", "var p T0; p++", "var p T0; p += p", "var a [2]T0; a[1].a = 1",
    "var a [2]T0; a[1] = T0{}; a[0], a[1] = a[1], a[0]", "return T0{}", "f0(T0{})", "f0([2]int{})",
]
# Statements with arrays, for the place in the last function below, which declares what they name.
OVER_ARRAYS = [
    "for range m { }", "for i := range m { i = m[i][0] }", "for i, v := range m { v[i] = i }", "for _, v := range m { v = m[0] }",
    "for i, v := range m { v = i }", "for i, v = range m { }", "for i, v := range i { v = i }", "for i, m[0] = range m { }",
    "for i, m[0][i] = range m[1] { }", "for i, p.b = range m { }", "for p.a, p.b[0] = range p.b { }", "for b, i = range m[0] { }",
    "for i, b = range m[0] { }", "for i, b = range [2]bool{b} { }", "for i, p = range [2]S{p, {}} { }", "for _ = range m { }",
    "for _, _ = range m { }", "for _, _ := range m { }", "for _ := range m { }", "for i, _ := range m { println(i) }",
    "for _, i = range m[i] { }", "for i, i := range m { }", "for i, j, k := range m { }", "for i, j, _ = range m { }",
    "for 1 = range m { }", "for i, f = range m { }", "for i, z = range m { }", "for range p { }", "for range p.b { }",
    "for i := range b { }", "for range nil { }", "for range int { }", "for range S{} { }", "for range (S{}).b { }",
    "for range [2]S{{}, {1, [2]int{}}} { }", "for _, q := range [2]S{{a: 1}, {}} { println(q.a) }", "for range [2]S{S{}} { }",
    "for _, v := range g() { println(v) }", "for _, v := range g().b { println(v) }", "for _, i = range g().b { }",
    "for i, v := range g { println(i, v) }", "for i, v := range m[2] { println(i, v) }",
    "for i, v := range m[-1] { println(i, v) }", "for _, v := range m[i] { m[i] = v }", "for _, v := range m[i] { m[i][v]++ }",
    "for i := range m[i] { println(i) }; println(v)", "for _, m := range m { for _, m := range m { println(m) } }",
    "for m, p := range m { println(m, p[0]) }", "for i := range m { continue; i = 1 }",
    "for _, v := range m { if v == m[0] { break } }", "for i := range m { return }", "for i := range len(m) { println(i) }",
    "for i, v := range len(m) { }", "for i = range cap(m[0]) { }", "for b = range len(m) { }", "i = len(m)", "i = len(m[i])",
    "i = len(m[2])", "i = len(m[len(m)])", "i = len(m[len(m)-1])", "i = m[len(m)-1][cap(m[0])-1]", "i = m[0][len(m)]",
    "i = len(p)", "i = len(p.b)", "i = cap(i)", "i = len(b)", "i = len(nil)", "i = len()", "i = len(m, m)", "i = len(m...)",
    "i = len", "i = len(S)", "i = len(S{}.b)", "i = cap([2]S{})", "i = cap([2]S{{i, [2]int{}}})", "i = (len)(m)", "i = len(z)",
    "i = len(m[b])", "b = len(m)", "b = len(m) == 2", "b = len(m) == b", "b = len(m) < 1 << 70", "i = len(m) << 62",
    "i = len(m) << i", "i = 1 << len(m)", "i = 1 << 70 >> (len(m) * 40)", "i = i << len(m)", "i <<= len(m) - 3",
    "i /= len(m) - 2", "i = 7 % (len(m) - cap(p.b))", "i = -len(m)", "b = !len(m)", "len(m)", "len(m) = 3", "len = 3",
    "len := len(m); i = len", "var len = cap(m); i = len(m)", "cap, len := len(m), cap(m); i = cap + len", "len(m)++",
    "println(len(m), cap(p.b), \"s\")", "println(len)", "panic(len(m))", "return len(m)", "for i < len(m) { i++ }",
    "if len(m) { }", "if len(m) == len(S{}.b) { }", "if len([2]S{}) == 2 { }", "p = S{len(m), [2]int{cap(m)}}",
    "p = S{b: len(m)}", "p = S{a: len(p.b)}", "m = [2][2]int{{len(m)}}", "m[len(m)-2] = p.b", "m[len(m)*4] = p.b", "f(len(m))",
    "f(len(m), b)", "len(f)", "i = f(len(m), b) + len(m).a", "i = len(m)[0]", "var w [2]int; for i := range w { w[i] = len(w) }",
    "for i := range m { var i = i == 1; b = i }", "m.len()", "i = int(len(m))",
]
ARRAYS_HERE = """
type S struct { a int; b [2]int }
func f(i int, b bool) int { return i }
func g() S { return S{} }
func h(i int, b bool) int { var m [2][2]int; var p S; %s; i, b, m, p = i, b, m, p; return i }
"""

HEADS = [
    "const C0 = 1", "var v0 bool", "func f0() int { }", "func f9() int { for { } }", "func f9() int { for { break } }",
    "const P, Q = Q, 1", "const P = P", "const P = v0", "var P = C0 << 70", "var P bool = 1",
    "func f9() (x int) { x := 1; return }", "func f9(a int, a bool) { }", "const int = 3",
    "func f9() (x int) { { x := true; return } }", "func f9() int { if C9 { return 1 } else { panic(2) } }", "const C9 = 1 > 2",
    "var P = Q; var Q = P", "func f9() int { for { for { break } } }", "func f9() int { for { if true { break } } }",
    "func f9() int { { return 1 } }", "func f9(int, x bool) { }", "const P int = 1 << 63",
    "const P = 1 << 63 >> 1; var Q int = P", "const P bool = 1 == 1; const Q = P == 1", "func main() { }", "var bool = true",
    "func f9() int { panic(1); }", "func f9() int { exit(1) }", "func f9() bool { return 1 == 1 && v0 == v0 }",
    "func println() { }", "var P int = nil", "type T0 struct { a T0 }", "type T9 struct { a T0; b [2]T9 }", "type T9 struct { }",
    "type T9 struct { a int; a bool }", "type T9 struct { a, b int }; var P T9; var Q = P",
    "type T9 struct { a T8 }; type T8 struct { b [2]T9 }",
    "type T9 struct { a T8 }; type T8 struct { b int }; func f9(p T9) int { return p.a.b }", "type int struct { a bool }",
    "type T9 struct { int int; bool bool }", "type T9 struct { a [N9]int }; const N9 = 4; var P T9; var Q = P.a",
    "const N9 = 3; var P [N9]int; var Q [3]int = P", "var P [Q]int; const Q = 2", "var P [Q]int; var Q = 2", "var P [f0()]int",
    "var P [-1]int", "var P [1 << 70]int", "var P [true]bool", "func f9(a [2]T0) (b T0) { return a[0] }",
    "func f9(p T0) int { return p }", "func f9(p T0) (q T0) { q = p; return }", "var P = T0{}", "const P = T0{}",
    "const P T0 = 1", "const P [2]int = 1", "var P T0 = 1", "func f9(a [2]int) { a[0], a[1] = a[1], a[0] }",
    "func f9(T0 int) T0 { return T0 }", "func f9(T0 int, p T0) { }", "func T0() { }", "var T0 int", "const T0 = 1", "type P T0",
    "type P [2]int", "type P int", "type P = int", "func f9() [2]int { return [2]int{} }",
    "func f9() [2]int { return [...]int{1, 2} }", "func f9() (p, q T0) { return q, p }",
    "func f9(a [2]int) int { return len(a) }", "func f9(a [2]int) { for i, x := range a { println(i, x) } }",
    "func f9(a [2]int) (i int) { for i = range a { return }; return }", "func f9(a [2]int) int { for i := range a { return i } }",
    "func f9(a [2][3]int) (b [3]int, i int) { for i, b = range a { }; return }", "func f9(len [2]int) int { return len(len) }",
    "func f9(a [2]int) (len, cap int) { len, cap = 1, 2; return }", "func f9(a [2]int) { for a := range a { println(a) } }",
    "func f9() { for _, x := range P { println(x) } }; var P [2]int", "func f9() int { return len(P) }; var P [2]T0",
    "func len(a [2]int) int { return a[0] }", "var cap [2]int", "const len = 2", "func f9(a [2]int) int { return len(f9) }",
    "func f9(a [2]int) int { for range a { }; for { } }", "func f9(a [2]int) bool { return len(a) }", "func f9(p *T0) { }",
    "func f9(p []T0) { }", "func f9(a [2]zz) { }", "type T9 struct { T0 }", "type T9 struct { a, a int }",
    "type T9 struct { _ int }", "type T9 struct { a [9]T7 }", "type main struct { a int }",
]


def with_arrays(text, chosen):
    """The text with a function in which one or two statements go over arrays or take lengths; mostly one word is another."""
    tokens = TOKEN.findall("; ".join(chosen.sample(OVER_ARRAYS, chosen.choice([1, 1, 2]))))
    words = "i b m p f g z S _ len cap 0 1 2 true int [2]int{} S{} m[0] m[i] p.a p.b g() g().b f(1,b) len(m) cap(p.b)".split()
    places = [index for index, it in enumerate(tokens) if re.match(r"\w", it) and it not in KEYWORDS]
    way = chosen.random()
    if way < 0.6 and places:
        index = chosen.choice(places)
        word = tokens[index]
        tokens[index] = chosen.choice(words + [f"({word})", f"len({word})", f"{word}[0]", f"{word}.b", f"{word}()"])
    elif way < 0.7:
        tokens[chosen.randrange(len(tokens))] = chosen.choice(OPERATORS + KEYWORDS + [""])
    return text + ARRAYS_HERE.replace("%s", "".join(tokens))


def changed(text, chosen):
    """The text with one small change."""
    lines = text.split("\n")
    way = chosen.randrange(23)
    if way > 19:
        return with_arrays(text, chosen)
    if way < 7:
        inside = [number for number, line in enumerate(lines) if line.startswith("\t")]
        plain = [number for number, line in enumerate(lines) if number > 1 and not re.search("[{}]", line)]
        index, other = chosen.choice(plain), chosen.choice(plain)
        if way == 0:
            del lines[index]
        elif way == 1:
            lines.insert(other, lines[index])
        elif way == 2:
            lines[index], lines[other] = lines[other], lines[index]
        elif way < 6 and inside:
            lines.insert(chosen.choice(inside) + chosen.randrange(2), chosen.choice(STATEMENTS))
        else:
            lines.append(chosen.choice(HEADS))
        return "\n".join(lines)
    tokens = TOKEN.findall(text)
    places = [index for index, it in enumerate(tokens) if it.strip() and index > 3]
    words = [index for index in places if re.match(r"\w|\"", tokens[index]) and tokens[index] not in KEYWORDS]
    signs = [index for index in places if tokens[index] in OPERATORS]
    index = chosen.choice(places)
    if way == 7:
        tokens[index] = ""
    elif way == 8:
        tokens[index] += " " + tokens[index]
    elif way == 9:
        other = chosen.choice(places)
        tokens[index], tokens[other] = tokens[other], tokens[index]
    elif way in (10, 11) and signs:
        tokens[chosen.choice(signs)] = " " + chosen.choice(OPERATORS) + " "
    elif way < 16:
        tokens[chosen.choice(words)] = chosen.choice(WORDS + [tokens[it] for it in words])
    elif way < 19:
        index = chosen.choice(words)
        forms = ["(%s)", "!%s", "-%s", "+%s", "^%s", "%s()", "%s(%s)", "%s, %s", "%s + 1", "%s == %s", "%s\n", "%s;"]
        forms += ["%s.a", "%s[0]", "%s{}", "[2]%s", "%s{%s}"]
        tokens[index] = chosen.choice(forms).replace("%s", tokens[index])
    else:
        tokens[index] = chosen.choice(WORDS + OPERATORS) + " " + tokens[index]
    return "".join(tokens)
