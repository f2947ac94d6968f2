"""Writes what code says several times over: the impls of a trait for what holds a value, which hand each call on, from the trait's
own declaration; and the functions of the tie, of which each names all, from the fields of `Rules`."""

import re

from clauses import Part, read
from table import snake

PLACE = "crates/base_token/src/place.rt"
KNOT = "crates/tree_nodes/src/knot.rt"
NESTING = "crates/tree_nesting/src/counts.rt"
TELLS = "crates/judge_is_module/src/parts.rt"
CHECK = "crates/judge/src/faults/check.rt"
STARTS = "crates/print_gaps/src/starts.rt"
ENDS = "crates/print_gaps/src/ends.rt"
WRITER = "crates/print_writers/src/text_writer.rt"
LENT = "crates/print_writers/src/lent.rt"
PRINT = "crates/print_nodes/src/print.rt"
ALONE = "crates/ecma_codegen/src/alone.rt"
RULES = "crates/parse_recursion/src/rules.rt"
TIE = "crates/parse_recursion/src/tie.rt"

# Each trait with the file that declares it, what holds a value of a type that has it, and the file with that impl.
HANDED_ON = [
    ("Spanned", PLACE, "&T", PLACE),
    ("Spanned", PLACE, "Box<T>", PLACE),
    ("Spanned", PLACE, "Child<T, K>", KNOT),
    ("Nesting", NESTING, "Child<T, K>", NESTING),
    ("Nesting", NESTING, "Box<T>", NESTING),
    ("Tells", TELLS, "Child<T, K>", TELLS),
    ("Tells", TELLS, "Box<T>", TELLS),
    ("Check", CHECK, "Child<T, K>", CHECK),
    ("Check", CHECK, "Box<T>", CHECK),
    ("StartsWithAlphaNum", STARTS, "Child<T, K>", STARTS),
    ("StartsWithAlphaNum", STARTS, "Box<T>", STARTS),
    ("EndsWithAlphaNum", ENDS, "Child<T, K>", ENDS),
    ("EndsWithAlphaNum", ENDS, "Box<T>", ENDS),
    ("WriteJs", WRITER, "Box<W>", WRITER),
    ("WriteJs", WRITER, "&mut W", LENT),
    ("Print", PRINT, "Child<T, K>", PRINT),
    ("PrintItem", PRINT, "Child<T, K>", PRINT),
    ("PrintPart", PRINT, "Child<T, K>", PRINT),
    ("Print", PRINT, "&T", PRINT),
    ("Print", PRINT, "Box<T>", PRINT),
    ("PrintAlone", ALONE, "Child<T, K>", ALONE),
    ("PrintAlone", ALONE, "Box<T>", ALONE),
]

# Of each holder: what stands for it, what it holds in a contract, and in code.
HOLDERS = {"Child": ("c", "c.part.value", "self.part"), "Box": ("b", "b.value", "(**self)"), "&": ("r", "r.now", "(**self)")}

# What is said of a loan beside what is said of what is lent.
OWN = {("&mut W", "loans"): "λ w. w.ghost_name ∷ W.loans w.now"}
USES = {"&mut W": "ghost use Rattle.std.specs.Prelude.{◌∷◌};"}

# How the functions of a trait, or one of them, are put in their callers' place.
INLINE = {"WriteJs": "#[inline]", "put": "#[inline(always)]"}


def declared(trait, file):
    """What a trait declares: its ghost members with their types, and its functions with their signatures."""
    body = re.search(r"^pub(?:\(crate\))? trait %s\b.*?^}" % trait, read(file), re.M | re.S)[0]
    return re.findall(r"^    ghost (\w+): \{ (.*) \};$", body, re.M), re.findall(r"^    (fn (\w+)\b.*)$", body, re.M)


def function(signature, name, held, inline=None):
    """A function that is asked of what is held."""
    args = ", ".join(re.findall(r"(\w+): ", signature.partition("(")[2]))
    return ([inline] if inline else []) + [signature + " {", "    %s.%s(%s)" % (held, name, args), "}"]


def handed_on(trait, file, holder):
    """The members of such an impl."""
    ghosts, functions = declared(trait, file)
    kind, var = re.match(r"(&|\w+)\W*(?:mut )?(\w)", holder).groups()
    name, value, held = HOLDERS[kind]
    if var == "W":
        name, value = "w", "w" + value[1:]
    members = [[USES[holder]]] if holder in USES else []
    for ghost, type_ in ghosts:
        first = [snake(t) for t in type_.split(" → ")]
        first = first[: first.index("self")]
        says = OWN.get((holder, ghost)) or "λ %s. %s.%s" % (" ".join(first + [name]), var, " ".join([ghost] + first + [value]))
        members.append(["ghost %s = { %s };" % (ghost, says)])
    return members + [function(signature, own, held, INLINE.get(own) or INLINE.get(trait)) for signature, own in functions]


def impl(file, head, members):
    """The part of a file that is an impl's members."""
    lines = ["    " + line if line else "" for member in members for line in ["", *member]][1:]
    return Part(file, head, lines, before=(head,), after="}")


def held_impl(trait, declaring, holder, file):
    more = ", K" if holder.startswith("Child") else ""
    var = "W" if "W" in holder else "T"
    return impl(file, "impl<%s: %s%s> %s for %s {" % (var, trait, more, trait, holder), handed_on(trait, declaring, holder))


def lent(trait, file):
    """The impls for a loan of each type that has an impl of its own: it is what that says of what is lent."""
    _, functions = declared(trait, file)
    out = []
    for bounds, own, ghost, says in re.findall(r"^impl(<.*>)? %s for (\w+(?:<.*>)?) \{\n    ghost (\w+) = \{ (.*) \};$" % trait, read(file), re.M):
        if bounds.startswith("<N"):
            continue
        lambda_ = re.fullmatch(r"λ (\w+) (\w+)\. (.*)", says)
        first, var, told = lambda_.groups() if lambda_ else ("look", "x", says + " look x")
        members = [["ghost %s = { λ %s r. %s };" % (ghost, first, re.sub(r"\b%s\b" % var, "r.now", told))]]
        members += [function(signature, name, "(**self)") for signature, name in functions]
        out.append(impl(file, "impl%s %s for &%s {" % (bounds, trait, own), members))
    return out


def tied():
    """The functions of the tie in each of them."""
    body = re.search(r"^pub struct Rules<.*?^}", read(RULES), re.M | re.S)[0]
    names = re.findall(r"^    pub (\w+): [A-Z],$", body, re.M)
    lines = ["left: depth - 1,"] + ["%s: parse_%s::<T>," % (name, name) for name in names]
    lines = ["        " + line for line in lines]
    return [Part(TIE, name, lines, before=("pub fn parse_%s<" % name, "    let rules = Rules {"), after="    };") for name in names]


def parts(table):
    return [held_impl(*it) for it in HANDED_ON] + lent("PrintAlone", ALONE) + tied()
