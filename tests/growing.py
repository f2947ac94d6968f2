"""Programs at random, by the grammar (ECMA-262, 13 to 16): nearly all that grow are of the grammar, and have no early error."""
import random
import re
from typing import NamedTuple

from hostile import (
    BAD_ESCAPES, FLAGS, LOOSE_NAMES, NAMES, NUMBERS, ODD_NAMES, OLD_NUMBERS, OLD_STRING_PARTS, REG_EXPS, STRING_PARTS, TEMPLATE_PARTS, WORDS,
)  # fmt: skip


class Mark(str):
    """What stands among tokens and is none."""


# no line may break between the tokens around it; a semicolon that may lack; one behind a field; one behind `do`
TIGHT, SEMI, FIELD_SEMI, DO_SEMI = map(Mark, ("tight", "semi", "field semi", "do semi"))
# binary operators, each with how tightly it binds
BINARY = [
    ("||", 1), ("&&", 2), ("|", 3), ("^", 4), ("&", 5), ("==", 6), ("!=", 6), ("===", 6), ("!==", 6), ("<", 7), (">", 7), ("<=", 7), (">=", 7), ("in", 7),
    ("instanceof", 7), ("<<", 8), (">>", 8), (">>>", 8), ("+", 9), ("-", 9), ("*", 10), ("/", 10), ("%", 10),
]  # fmt: skip
ASSIGN = "= += -= *= /= %= **= <<= >>= >>>= &= |= ^= &&= ||= ??=".split()
UNARY = "- + ! ~ typeof void delete".split()


class Code(NamedTuple):
    """The code around a part."""

    strict: bool = False
    module: bool = False
    # whether `yield` and `await` are no names here, and whether they may stand as operators
    yields: bool = False
    awaits: bool = False
    can_yield: bool = False
    can_await: bool = False
    has_in: bool = True
    function: bool = False
    loop: bool = False
    switch: bool = False
    labels: tuple = ()
    loops: tuple = ()
    method: bool = False
    derived: bool = False
    target: bool = False
    static_block: bool = False
    privates: tuple = ()
    # directly in a script, where no `using` may stand
    top: bool = False


class Growing:
    """What grows from a seed. `fuel` says how many nodes are still to grow; without it leaves alone grow. `language` has the optional
    parts of the language that may grow: `using` and `accessors`."""

    def __init__(self, seed, fuel=40, language=()):
        self.random = random.Random(seed)
        self.fuel = fuel
        self.language = language
        self.count = 0

    # choices
    def often(self, chance):
        return self.random.random() < chance

    def one(self, of):
        return self.random.choice(of)

    def many(self, grow, most=3, least=0):
        """Some lists of tokens."""
        count = self.random.randint(least, max(least, most if self.fuel > 0 else least))
        return [grow() for _ in range(count)]

    def burn(self):
        self.fuel -= 1
        return self.fuel > 0

    def of(self, ways):
        """Grows by one of these ways, each with its weight; by the first where there is no fuel."""
        if not self.burn():
            return ways[0][1]()
        return self.random.choices([it[1] for it in ways], [it[0] for it in ways])[0]()

    # names
    def is_name(self, name, code, binds):
        """Whether a word is a name in some code."""
        if code.strict and (name in LOOSE_NAMES or binds and name in ("eval", "arguments")):
            return False
        return not (code.static_block and name == "arguments")

    def name(self, code, binds=False):
        while True:
            found = self.one(NAMES) if self.often(0.7) else self.one(ODD_NAMES + LOOSE_NAMES)
            if not code.yields and not code.strict and self.often(0.02):
                found = "yield"
            if not code.awaits and not code.module and not code.static_block and self.often(0.02):
                found = "await"
            if self.is_name(found, code, binds):
                return found

    def fresh(self):
        """A name that stands nowhere else."""
        self.count += 1
        return f"{self.one(['v', 'é', '$', 'v_', 'let_'])}{self.count}"

    def declared(self, code):
        """A name that is declared, mostly one that stands nowhere else."""
        return self.fresh() if self.often(0.8) else self.name(code, True)

    # literals
    def string(self, code):
        quote = self.one("'\"")
        parts = STRING_PARTS + ([] if code.strict else OLD_STRING_PARTS)
        inner = "".join(self.one(parts) for _ in range(self.random.randint(0, 4)))
        other = "'" if quote == '"' else '"'
        inner = inner.replace("\\" + quote, "\0").replace(quote, other).replace("\0", "\\" + quote)
        return "'a'" if inner == "use strict" else quote + inner + quote

    def number(self, code):
        return self.one(NUMBERS + ([] if code.strict else OLD_NUMBERS))

    def template(self, code, tagged=False):
        parts = TEMPLATE_PARTS + (BAD_ESCAPES if tagged else [])

        def chars():
            found = "".join(self.one(parts) for _ in range(self.random.randint(0, 3)))
            return re.sub(r"(\\.)|\$\{", lambda it: it[1] or "$ {", found, flags=re.S)

        exprs = self.many(lambda: self.expr(code._replace(has_in=True)), 2)
        texts = [chars() for _ in range(len(exprs) + 1)]
        found = ["`" + texts[0]]
        for expr, text in zip(exprs, texts[1:]):
            found[-1] += "${"
            found += [*expr, "}" + text]
        found[-1] += "`"
        return found

    def reg_exp(self):
        body = "".join(self.one(REG_EXPS) for _ in range(self.random.randint(1, 2)))
        return f"/{body}/{self.one(FLAGS)}"

    # expressions
    def expr(self, code):
        if self.often(0.06) and self.burn():
            return self.commas([self.assignment(code) for _ in range(self.random.randint(2, 3))])
        return self.assignment(code)

    @staticmethod
    def commas(lists, last=False):
        found = []
        for it in lists:
            found += [*it, ","]
        return found if last else found[:-1]

    def inner(self, code):
        """An expression in brackets."""
        return self.expr(code._replace(has_in=True))

    def value(self, code):
        return self.assignment(code._replace(has_in=True))

    def assignment(self, code):
        ways = [(10, lambda: self.conditional(code)), (2, lambda: self.assign(code)), (2, lambda: self.arrow(code))]
        if code.can_yield:
            ways.append((3, lambda: self.yield_(code)))
        return self.of(ways)

    def assign(self, code):
        if self.often(0.35):
            return [*self.pattern_target(code), "=", *self.assignment(code)]
        return [*self.target(code), self.one(ASSIGN), *self.assignment(code)]

    def target(self, code):
        """A simple target (13.15.1)."""
        ways = [(4, lambda: [self.name(code, True)]), (3, lambda: self.member(code)), (1, lambda: ["(", *self.target(code), ")"])]
        return self.of(ways)

    def yield_(self, code):
        if self.often(0.3):
            return ["yield"]
        if self.often(0.4):
            return ["yield", TIGHT, "*", *self.assignment(code)]
        return ["yield", TIGHT, *self.assignment(code)]

    def arrow(self, code):
        is_async = self.often(0.3)
        blocks = self.often(0.4)
        strict = blocks and self.often(0.1)
        inner = code._replace(can_yield=False, can_await=False, strict=code.strict or strict)
        if is_async:
            inner = inner._replace(awaits=True)
        if self.often(0.4):
            params = [self.name(inner, True)]
        else:
            params = ["(", *self.params(inner, strict), ")"]
        head = ["async", TIGHT, *params] if is_async else params
        below = self.into(code, is_async, False, arrow=True, strict=inner.strict)
        if blocks:
            return [*head, TIGHT, "=>", *self.body(below, strict)]
        body = self.assignment(below._replace(has_in=code.has_in))
        return [*head, TIGHT, "=>", *(["(", *body, ")"] if body[0] == "{" else body)]

    def conditional(self, code):
        if self.often(0.08) and self.burn():
            return [*self.short_circuit(code), "?", *self.value(code), ":", *self.assignment(code)]
        return self.short_circuit(code)

    def short_circuit(self, code):
        if self.often(0.05) and self.burn():
            found = self.binary(code, 3)
            for _ in range(self.random.randint(1, 2)):
                found += ["??", *self.binary(code, 3)]
            return found
        return self.binary(code, 1)

    def binary(self, code, level):
        """A binary expression whose operators bind at least so tightly."""
        if level > 10 or not self.often(0.3) or not self.burn():
            return self.power(code)
        if code.privates and code.has_in and level <= 7 and self.often(0.15):
            return [self.one(code.privates), "in", *self.binary(code, 8)]
        op, own = self.one([it for it in BINARY if it[1] >= level and (code.has_in or it[0] != "in")])
        return [*self.binary(code, own), op, *self.binary(code, own + 1)]

    def power(self, code):
        if self.often(0.04) and self.burn():
            return [*self.update(code), "**", *self.power(code)]
        return self.unary(code)

    def unary(self, code):
        ways = [(12, lambda: self.update(code)), (3, lambda: self.operator(code))]
        if code.can_await:
            ways.append((3, lambda: ["await", *self.unary(code)]))
        return self.of(ways)

    def operator(self, code):
        op = self.one(UNARY)
        operand = self.unary(code)
        # a bare name is not deleted in strict code, nor a private member anywhere
        return [op, "(", "0", ",", *operand, ")"] if op == "delete" else [op, *operand]

    def update(self, code):
        if self.often(0.08) and self.burn():
            if self.often(0.5):
                return [self.one(("++", "--")), *self.target(code)]
            return [*self.target(code), TIGHT, self.one(("++", "--"))]
        return self.left_hand(code)

    def left_hand(self, code):
        ways = [
            (14, lambda: self.primary(code)), (5, lambda: self.member(code)), (5, lambda: self.call(code)), (2, lambda: self.new(code)),
            (2, lambda: self.chain(code)), (1, lambda: self.tagged(code)), (1, lambda: self.imported(code)),
        ]  # fmt: skip
        return self.of(ways)

    def args(self, code):
        code = code._replace(has_in=True)
        found = self.many(lambda: (["..."] if self.often(0.15) else []) + self.assignment(code))
        return ["(", *self.commas(found, bool(found) and self.often(0.1)), ")"]

    def object_of(self, code):
        """What a member, call or template may stand behind: no `new` without arguments, and no optional chain."""
        ways = [(10, lambda: self.primary(code)), (3, lambda: self.member(code)), (2, lambda: self.call(code)), (1, lambda: self.tagged(code))]
        if code.method:
            ways.append((1, lambda: self.super_member(code)))
        if code.derived:
            ways.append((1, lambda: ["super", *self.args(code)]))
        return self.of(ways)

    def super_member(self, code):
        return ["super", *self.access(code._replace(privates=()))]

    def access(self, code):
        if self.often(0.3):
            return ["[", *self.inner(code), "]"]
        if code.privates and self.often(0.3):
            return [".", self.one(code.privates)]
        return [".", self.one(WORDS)]

    def member(self, code):
        return [*self.object_of(code), *self.access(code)]

    def call(self, code):
        return [*self.object_of(code), *self.args(code)]

    def tagged(self, code):
        return [*self.object_of(code), *self.template(code._replace(has_in=True), True)]

    def new(self, code):
        if self.often(0.25):
            return ["new", *self.bare_callee(code)]
        return ["new", *self.bare_callee(code), *self.args(code)]

    def bare_callee(self, code):
        """A callee of `new`: a member expression without calls."""
        ways = [(6, lambda: self.primary(code)), (2, lambda: [*self.bare_callee(code), *self.access(code)]), (1, lambda: self.new(code))]
        if code.target:
            ways.append((1, lambda: ["new", ".", "target"]))
        return self.of(ways)

    def chain(self, code):
        found = self.object_of(code)
        for _ in range(self.random.randint(1, 3)):
            if self.often(0.6) or "?." not in found:
                found = [*found, "?.", *self.one((lambda: self.args(code), lambda: ["[", *self.inner(code), "]"], lambda: [self.one(WORDS)]))()]
            else:
                found = [*found, *self.one((lambda: self.args(code), lambda: self.access(code)))()]
        return found

    def imported(self, code):
        if code.module and self.often(0.5):
            return ["import", ".", "meta"]
        return ["import", "(", *self.value(code), *([",", *self.value(code)] if self.often(0.3) else []), *([","] if self.often(0.1) else []), ")"]

    def primary(self, code):
        inner = code._replace(has_in=True)
        ways = [
            (14, lambda: [self.name(code)]), (4, lambda: [self.number(code)]), (4, lambda: [self.string(code)]), (1, lambda: ["this"]),
            (1, lambda: [self.one(("null", "true", "false"))]), (2, lambda: [self.reg_exp()]), (2, lambda: self.template(inner)),
            (3, lambda: self.array(inner)), (3, lambda: self.object(inner)), (2, lambda: self.function(code, "expression")),
            (2, lambda: self.class_(code, "expression")), (5, lambda: ["(", *self.expr(inner), ")"]),
        ]  # fmt: skip
        if code.target:
            ways.append((1, lambda: ["new", ".", "target"]))
        return self.of(ways)

    def array(self, code):
        found = ["["]
        for _ in range(self.random.randint(0, 3)):
            if self.often(0.15):
                found.append(",")
            else:
                found += [*(["..."] if self.often(0.2) else []), *self.assignment(code), ","]
        if found[-1] == "," and self.often(0.7) and len(found) > 2 and found[-2] != ",":
            found.pop()
        return [*found, "]"]

    def key(self, code):
        return self.of([
            (6, lambda: [self.one(WORDS)]), (2, lambda: [self.string(code)]), (2, lambda: [self.number(code)]), (2, lambda: ["[", *self.value(code), "]"]),
        ])  # fmt: skip

    def plain_key(self, code):
        """A key that is not `__proto__`, of which an object literal may have one."""
        found = self.key(code)
        return ["k"] if found[0] in ("__proto__",) or "__proto__" in found[0] else found

    def object(self, code):
        def prop():
            return self.of([
                (4, lambda: [*self.plain_key(code), ":", *self.assignment(code)]), (4, lambda: [self.name(code)]),
                (2, lambda: ["...", *self.assignment(code)]), (3, lambda: self.method(code, [])),
            ])  # fmt: skip

        props = self.many(prop)
        return ["{", *self.commas(props, bool(props) and self.often(0.2)), "}"]

    # functions
    def into(self, code, is_async, yields, arrow=False, strict=False, **more):
        """The code of a function's body."""
        inner = code._replace(
            strict=strict, yields=yields, can_yield=yields, awaits=is_async or code.module, can_await=is_async, has_in=True, function=True, loop=False,
            switch=False, labels=(), loops=(), static_block=False, top=False,
        )  # fmt: skip
        if not arrow:
            inner = inner._replace(method=False, derived=False, target=True)
        elif code.static_block or code.awaits:
            inner = inner._replace(awaits=True)
        return inner._replace(**more)

    def params(self, code, simple):
        """Parameters, without their parentheses."""
        def one():
            if simple or self.often(0.5):
                return [self.fresh()]
            found = self.binding(code)
            return [*found, "=", *self.value(code)] if self.often(0.3) else found

        found = self.many(one)
        if not simple and self.often(0.1):
            return self.commas([*found, ["...", *self.binding(code)]])
        return self.commas(found, bool(found) and self.often(0.1))

    def body(self, code, strict=False):
        directives = [[self.one(('"use strict"', "'use strict'")), SEMI]] if strict else []
        if self.often(0.05):
            directives.insert(0, ["'a\\x62'" if self.often(0.5) else '"use\\x20strict"', SEMI])
        return ["{", *sum(directives, []), *sum(self.many(lambda: self.item(code)), []), "}"]

    def whole(self, code, is_async, yields, most=None, **more):
        """The parameters and the body of a function."""
        strict = self.often(0.08)
        inner = self.into(code, is_async, yields, strict=code.strict or strict, **more)
        outside = inner._replace(can_yield=False, can_await=False)
        if most is None:
            params = self.params(outside, strict)
        elif most:
            params = [self.fresh()] if strict or self.often(0.6) else self.binding(outside)
        else:
            params = []
        return ["(", *params, ")", *self.body(inner, strict)]

    def function(self, code, how):
        """A function: an expression, a declaration, or one without a name that is exported."""
        is_async, yields = self.often(0.25), self.often(0.25)
        is_expression = how == "expression"
        name = [self.one(NAMES) if is_expression and self.often(0.3) else self.fresh()]
        if how == "default" or is_expression and self.often(0.5):
            name = []
        return [*(["async", TIGHT] if is_async else []), "function", *(["*"] if yields else []), *name, *self.whole(code, is_async, yields)]

    def method(self, code, front, key=None, derived=False):
        """A method, getter or setter of an object or a class; a setter takes one parameter."""
        key = key or self.plain_key(code)
        way = self.random.randrange(8)
        more = {"method": True, "derived": derived}
        if way == 0:
            return [*front, "get", *key, *self.whole(code, False, False, 0, **more)]
        if way == 1:
            return [*front, "set", *key, *self.whole(code, False, False, 1, **more)]
        if way == 2:
            return [*front, "async", TIGHT, *key, *self.whole(code, True, False, **more)]
        if way == 3:
            return [*front, "*", *key, *self.whole(code, False, True, **more)]
        if way == 4:
            return [*front, "async", TIGHT, "*", *key, *self.whole(code, True, True, **more)]
        return [*front, *key, *self.whole(code, False, False, **more)]

    # classes
    def class_(self, code, how):
        code = code._replace(strict=True)
        name = [] if how == "default" or how == "expression" and self.often(0.5) else [self.fresh()]
        own = tuple(f"#{self.fresh()}" for _ in range(self.random.randint(0, 2)))
        derived = self.often(0.4)
        inner = code._replace(privates=code.privates + own)
        heritage = ["extends", *self.left_hand(code._replace(has_in=True))] if derived else []
        members = [self.private(inner, it) for it in own] + self.many(lambda: self.class_member(inner))
        if self.often(0.25):
            members.append(["constructor", *self.whole(inner, False, False, method=True, derived=derived)])
        self.random.shuffle(members)
        return ["class", *name, *heritage, "{", *sum(members, []), "}"]

    def private(self, code, name):
        if self.often(0.4):
            return self.method(code, ["static"] if self.often(0.2) else [], [name])
        return self.field(code, ["static"] if self.often(0.2) else [], [name])

    def class_member(self, code):
        front = ["static"] if self.often(0.3) else []
        ways = [
            (1, lambda: [";"]), (4, lambda: self.method(code, front, self.member_key(code))), (4, lambda: self.field(code, front, self.member_key(code))),
            (1, lambda: self.static_block(code)),
        ]  # fmt: skip
        if "accessors" in self.language:
            ways.append((2, lambda: self.field(code, [*front, "accessor", TIGHT], self.member_key(code))))
        return self.of(ways)

    def member_key(self, code):
        found = self.key(code._replace(has_in=True))
        # a constructor stands apart, and so does a static member that is called prototype
        return ["k"] if len(found) == 1 and ("constructor" in found[0] or "prototype" in found[0]) else found

    def field(self, code, front, key):
        inner = self.into(code, False, False, strict=True, method=True, function=False)._replace(can_await=False, static_block=True)
        value = ["=", *self.assignment(inner)] if self.often(0.6) else []
        return [*front, *key, *value, FIELD_SEMI]

    def static_block(self, code):
        inner = self.into(code, False, False, strict=True, method=True, function=False, static_block=True)._replace(awaits=True)
        return ["static", "{", *sum(self.many(lambda: self.item(inner), 2), []), "}"]

    # patterns
    def binding(self, code):
        return self.of([
            (6, lambda: [self.fresh()]), (2, lambda: self.array_pattern(code, self.binding)), (2, lambda: self.object_pattern(code, self.binding, True)),
        ])  # fmt: skip

    def pattern_target(self, code):
        code = code._replace(has_in=True)
        return self.one((self.array_pattern, self.object_pattern))(code, self.element)

    def element(self, code):
        return self.of([
            (5, lambda: self.target(code)), (1, lambda: self.array_pattern(code, self.element)), (1, lambda: self.object_pattern(code, self.element)),
        ])  # fmt: skip

    def with_default(self, code, found):
        return [*found, "=", *self.value(code)] if self.often(0.3) else found

    def array_pattern(self, code, part):
        found = []
        for _ in range(self.random.randint(0, 3)):
            found += [","] if self.often(0.15) else [*self.with_default(code, part(code)), ","]
        if self.often(0.2):
            return ["[", *found, "...", *part(code), "]"]
        if found and self.often(0.7) and len(found) > 1 and found[-2] != ",":
            found.pop()
        return ["[", *found, "]"]

    def object_pattern(self, code, part, binds=False):
        def prop():
            if self.often(0.5):
                return self.with_default(code, [self.fresh() if binds else self.name(code, True)])
            return [*self.key(code._replace(has_in=True)), ":", *self.with_default(code, part(code))]

        found = self.many(prop)
        if self.often(0.2):
            rest = [self.fresh()] if binds else self.target(code)
            return ["{", *self.commas([*found, ["...", *rest]]), "}"]
        return ["{", *self.commas(found, bool(found) and self.often(0.2)), "}"]

    # statements
    def item(self, code):
        """A statement or a declaration."""
        ways = [
            (6, lambda: self.statement(code)), (3, lambda: self.variables(code, self.one(("let", "const", "var")))),
            (1, lambda: self.function(code, "declaration")), (1, lambda: self.class_(code, "declaration")),
        ]  # fmt: skip
        if "using" in self.language and not code.top:
            ways.append((2, lambda: [*self.using(code), SEMI]))
        return self.of(ways)

    def using(self, code):
        """A declaration of `using`, without its semicolon. Each binding is a name with its value."""
        bindings = self.many(lambda: [self.fresh(), "=", *self.assignment(code)], 2, 1)
        return [*self.using_words(code), *self.commas(bindings)]

    def using_words(self, code):
        return [*(["await", TIGHT] if code.can_await and self.often(0.4) else []), "using", TIGHT]

    def statement(self, code):
        ways = [
            (8, lambda: self.expression_statement(code)), (1, lambda: [";"]), (2, lambda: self.block(code)), (2, lambda: self.variables(code, "var")),
            (2, lambda: self.if_(code)), (2, lambda: self.for_(code)), (1, lambda: self.while_(code)), (1, lambda: self.do(code)),
            (1, lambda: self.switch(code)), (1, lambda: ["throw", TIGHT, *self.expr(code), SEMI]), (1, lambda: self.try_(code)),
            (1, lambda: ["debugger", SEMI]), (1, lambda: self.labeled(code)),
        ]  # fmt: skip
        if code.function:
            ways.append((2, lambda: ["return", *([TIGHT, *self.expr(code)] if self.often(0.7) else []), SEMI]))
        if code.loop or code.switch or code.labels:
            ways.append((2, lambda: self.jump(code)))
        if not code.strict:
            ways.append((1, lambda: ["with", "(", *self.inner(code), ")", *self.statement(code)]))
        return self.of(ways)

    def jump(self, code):
        ways = [["break"]] if code.loop or code.switch else []
        ways += [["continue"]] if code.loop else []
        ways += [["break", TIGHT, it] for it in code.labels] + [["continue", TIGHT, it] for it in code.loops]
        return [*self.one(ways), SEMI]

    @staticmethod
    def declares(found):
        """Whether tokens begin as a declaration of a function or a class does."""
        return found[0] in ("function", "class") or found[:2] == ["async", TIGHT]

    def expression_statement(self, code):
        found = self.expr(code._replace(has_in=True))
        is_barred = found[0] in ("{", "let") or self.declares(found)
        return ["(", *found, ")", SEMI] if is_barred else [*found, SEMI]

    def block(self, code):
        inner = code._replace(top=False)
        return ["{", *sum(self.many(lambda: self.item(inner)), []), "}"]

    def declarator(self, code, kind):
        if kind != "var" and kind != "let" or self.often(0.6):
            return [*(self.binding(code)), "=", *self.assignment(code)]
        return [self.fresh() if kind == "let" else self.declared(code)]

    def variables(self, code, kind):
        return [kind, *self.commas(self.many(lambda: self.declarator(code, kind), 2, 1)), SEMI]

    def if_(self, code):
        head = ["if", "(", *self.inner(code), ")"]
        if self.often(0.4):
            # an `if` without `else` would take the one that follows
            return [*head, *self.block(code), "else", *self.statement(code)]
        return [*head, *self.statement(code)]

    def for_(self, code):
        inner = code._replace(loop=True)
        outside = code._replace(has_in=False)
        way = self.random.randrange(3)
        has_using = "using" in self.language
        if way == 0:
            init = self.one((
                lambda: [], lambda: self.variables(outside, self.one(("var", "let", "const")))[:-1], lambda: self.parted(self.expr(outside)),
                *([lambda: self.using(outside)] if has_using else []),
            ))()  # fmt: skip
            test, step = (self.inner(code) if self.often(0.6) else [] for _ in range(2))
            return ["for", "(", *init, ";", *test, ";", *step, ")", *self.statement(inner)]
        left = self.one((
            lambda: [self.one(("var", "let", "const")), *self.binding(outside)], lambda: self.parted(self.target(outside)), lambda: self.pattern_target(code),
        ))()  # fmt: skip
        if way == 1:
            return ["for", "(", *left, "in", *self.inner(code), ")", *self.statement(inner)]
        waits = ["await"] if code.can_await and self.often(0.5) else []
        if has_using and self.often(0.2):
            left = [*self.using_words(code), self.fresh()]
        if left == ["async"]:
            left = ["a"]
        return ["for", *waits, "(", *left, "of", *self.value(code), ")", *self.statement(inner)]

    @staticmethod
    def parted(found):
        """An expression in the head of a loop, which begins with no `let`."""
        return ["(", *found, ")"] if found[0] == "let" else found

    def while_(self, code):
        return ["while", "(", *self.inner(code), ")", *self.statement(code._replace(loop=True))]

    def do(self, code):
        return ["do", *self.statement(code._replace(loop=True)), "while", "(", *self.inner(code), ")", DO_SEMI]

    def switch(self, code):
        inner = code._replace(switch=True, top=False)
        cases = self.many(lambda: ["case", *self.inner(code), ":", *sum(self.many(lambda: self.item(inner), 2), [])])
        if self.often(0.4):
            cases.insert(self.random.randint(0, len(cases)), ["default", ":", *sum(self.many(lambda: self.item(inner), 2), [])])
        return ["switch", "(", *self.inner(code), ")", "{", *sum(cases, []), "}"]

    def try_(self, code):
        found = ["try", *self.block(code)]
        way = self.random.randrange(3)
        if way < 2:
            param = ["(", *self.binding(code), ")"] if self.often(0.7) else []
            found += ["catch", *param, *self.block(code)]
        return found if way == 0 else [*found, "finally", *self.block(code)]

    def labeled(self, code):
        name = self.fresh()
        inner = code._replace(labels=(*code.labels, name))
        if self.often(0.5):
            return [name, ":", *self.one((self.for_, self.while_, self.do))(inner._replace(loops=(*code.loops, name)))]
        return [name, ":", *self.statement(inner)]

    # modules
    def attributes(self, code):
        if self.often(0.8):
            return []
        pairs = self.many(lambda: [self.one(WORDS) if self.often(0.5) else f'"{self.fresh()}"', ":", self.string(code)], 1)
        return ["with", "{", *self.commas(pairs, bool(pairs) and self.often(0.2)), "}"]

    def outer_name(self, code):
        """The name of an export: a word or a string."""
        return f"'{self.fresh()}'" if self.often(0.2) else self.one(WORDS) if self.often(0.3) else self.fresh()

    def import_(self, code):
        def specifier():
            if self.often(0.5):
                return [self.fresh()]
            return [self.outer_name(code), "as", self.fresh()]

        source = [self.string(code), *self.attributes(code), SEMI]
        first = [self.fresh()] if self.often(0.4) else []
        named = self.many(specifier)
        braces = ["{", *self.commas(named, bool(named) and self.often(0.2)), "}"]
        rest = self.one((["*", "as", self.fresh()], braces, braces, []))
        what = [*first, *([","] if first and rest else []), *rest]
        return ["import", *([*what, "from"] if what else []), *source]

    def export(self, code):
        def specifier():
            return [self.fresh(), *(["as", self.fresh()] if self.often(0.5) else [])]

        def reexported():
            return [self.outer_name(code), *(["as", self.fresh()] if self.often(0.5) else [])]

        source = ["from", self.string(code), *self.attributes(code), SEMI]
        return ["export", *self.of([
            (2, lambda: self.variables(code, self.one(("let", "const", "var")))), (1, lambda: self.function(code, "declaration")),
            (1, lambda: self.class_(code, "declaration")), (1, lambda: ["*", *(["as", self.fresh()] if self.often(0.5) else []), *source]),
            (1, lambda: ["{", *self.commas(self.many(specifier)), "}", SEMI]), (1, lambda: ["{", *self.commas(self.many(reexported)), "}", *source]),
        ])]  # fmt: skip

    def export_default(self, code):
        what = self.random.randrange(3)
        if what == 0:
            return ["export", "default", *self.function(code, self.one(("default", "declaration")))]
        if what == 1:
            return ["export", "default", *self.class_(code, self.one(("default", "declaration")))]
        found = self.value(code)
        return ["export", "default", *(["(", *found, ")"] if self.declares(found) else found), SEMI]

    def module_item(self, code):
        return self.of([(6, lambda: self.item(code)), (1, lambda: self.import_(code)), (1, lambda: self.export(code))])

    # programs
    def program(self, goal):
        """The tokens of a script or a module."""
        is_module = goal == "module"
        strict = is_module or self.often(0.1)
        code = Code(strict=strict, module=is_module, awaits=is_module, can_await=is_module, top=not is_module)
        found = ["'use strict'", SEMI] if strict and not is_module else []
        while self.fuel > 0:
            found += self.module_item(code) if is_module else self.item(code)
        if is_module and self.often(0.2):
            found += self.export_default(code)
        return found
