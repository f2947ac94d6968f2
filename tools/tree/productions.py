"""Writes the proofs that go over what a tree produces by its productions. They follow the grammar's definition, which is written by
hand: its clauses say what each kind of node produces, and of which children."""

import copy
import re

from clauses import definition, read
from node_types import snake

GRAMMAR = "crates/grammar_spec/specs/Grammar.antt"
BRACES = "crates/grammar_laws/proofs/slash/Braces.antt"
PLACED = "crates/grammar_laws/proofs/context/Placed.antt"
PRINTED = "crates/print_layout_laws/proofs/Printed.antt"
FOUND = "crates/again_laws/proofs/derived/Found.antt"

# What the lemma of a production is called where it isn't as the production.
SHORT = {
    "PrivateIdentifier": "private",
    "StringLiteral": "string",
    "NumericLiteral": "number",
    "BigIntLiteral": "big_int",
    "RegularExpressionLiteral": "regexp",
    "ArrayLiteral": "array",
    "ObjectLiteral": "object",
    "PropertyValue": "property",
    "CoverInitializedName": "cover",
    "TemplateLiteral": "template",
    "ParenthesizedExpression": "parens",
    "TaggedTemplate": "tagged",
    "AccessedName": "accessed",
    "Await": "awaits",
    "Yield": "yields",
    "Rest": "rests",
    "Function": "function_on",
    "Constructor": "constructs_on",
    "ClassMethod": "class_method_on",
    "AutoAccessor": "accessor",
    "StaticBlock": "static_block_on",
    "Using": "using_on",
    "If": "if_on",
    "While": "while_on",
    "Return": "return_on",
    "With": "with_on",
    "Switch": "switch_on",
    "Case": "case_on",
    "Throw": "throw_on",
    "Try": "try_on",
    "Catch": "catch_on",
    "Import": "import_on",
    "Exports": "exports_on",
    "NamedExport": "named_export_on",
    "ExportAll": "export_all_on",
}

# Those of `print_layout_laws`, of a production or of a kind of tree.
PRINTED_SHORT = {
    "FunctionDeclaration": "function_declared",
    "FunctionExpression": "function_expressed",
    "ClassDeclaration": "class_declared",
    "ClassExpression": "class_expressed",
    "Constructor": "constructs",
    "private_method": "private_method_on",
    "private_prop": "private_field",
    "continue_stmt": "continue_on",
    "break_stmt": "break_on",
    "script": "script_on",
    "es_module": "module_on",
}

# Those of `again_laws`, before `_found`, of a production or of a kind of tree.
FOUND_SHORT = {
    "ArrayLiteral": "array",
    "ObjectLiteral": "object",
    "PropertyValue": "property",
    "CoverInitializedName": "cover",
    "Bracketed": "computed",
    "TemplateLiteral": "template",
    "ParenthesizedExpression": "paren",
    "SuperProperty": "super",
    "TaggedTemplate": "tagged",
    "MetaProperty": "meta",
    "ArrowExpression": "arrow",
    "Parameter": "param",
    "FunctionDeclaration": "declaration",
    "FunctionExpression": "expression",
    "ClassTail": "class",
    "AutoAccessor": "accessor",
    "ExpressionStatement": "statement",
    "continue_stmt": "continue",
    "break_stmt": "break",
    "script": "script",
    "es_module": "module",
}

# The modules of lemmas, by those that hold the grammar's productions; those of patterns may stand with those of expressions.
MODULES = {
    BRACES: "Rattle.grammar_laws.proofs.slash.Template%s",
    PLACED: "Rattle.grammar_laws.proofs.context.%s",
    PRINTED: "Rattle.print_layout_laws.proofs.Printed%s",
    FOUND: "Rattle.again_laws.proofs.derived.Found%s",
}
WITH_EXPRESSIONS = (PLACED, PRINTED, FOUND)

# What is asked of a word's kind, or of the kind of a part, in the proof that braces match.
ASKED = {
    "(if v then true_kind else false_kind)": "(constant v)",
    "is_key": "key_sort",
    "is_private": "private_sort",
    "is_item": "item_sort",
    "is_module_item": "module_sort",
}

# Nodes that are asked for more than their parts, or for less.
WALK = {
    "tpl_element": "absurd (true≢false (sym pp))",
    "expr_pat": "walk e c pl gs ts r pp hh.1",
}
MOVE = {
    "(yield_expr s absent g)": "λ ts r o h g. let z = yield_bare p kin c s ts r o h.1 g in (z.0, z.1, (h.0, z.2))",
    "(binding_ident s (ident t n))": "λ ts r o h g. let z = identifier p kin c s n ts r o h.1 g in (z.0, z.1, (h.0, z.2))",
}

# Nodes whose layout is proved by itself: words and texts, and what is laid out as one of its parts.
GOOD = {
    "this_expr": "λ ts r h st. ok ▸ ok ▸ ok ▸ ok",
    "null_lit": "λ ts r h st. ok ▸ ok",
    "bool_lit": "λ ts r h st. ok ▸ ok",
    "ident": "λ ts r h st. identifier_fine look s n",
    "ident_name": "λ ts r h st. if_fine (is_key st) (ok ▸ ok ▸ ok) (name_fine look s n)",
    "private_name": "λ ts r h st. ok ▸ ok ▸ name_fine look s n ▸ ok",
    "str_lit": "λ ts r h st. maybe _ _ ▸ ok ▸ ok ▸ ok ▸ maybe _ _",
    "number_lit": "λ ts r h st. maybe _ _ ▸ number_fine look s v w",
    "big_int_lit": "λ ts r h st. maybe _ _ ▸ ok ▸ ok ▸ ok ▸ ok",
    "regex_lit": "λ ts r h st. ok ▸ token",
    "tpl_element": "λ ts r h st. ok ▸ token ▸ ok",
    "meta_prop_expr": "λ ts r h st. ok ▸ if_fine _ token token",
    "(yield_expr s absent g)": "λ ts r h. yield_bare look s g",
    "binding_ident": "λ ts r h st. identifier_fine look s n",
    "expr_pat": "λ ts r h st. good e c ts r h.1 Alone",
    "function": "function_good look s ps ds (block_stmt b ss) g a (function_inner look s ps ds b ss g a (goods ps) (goods ss)) c",
    "class": "class_good look s ds ms k (class_inner look s ds ms k (goods ms) (good k)) c",
    "constructor": "constructs look s k ps b ss (goods ps) (goods ss) c",
    "empty_stmt": "λ ts r h st. ok",
    "debugger_stmt": "λ ts r h st. ok ▸ ok ▸ ok ▸ ok ▸ ok",
}

# Nodes of which is told how they were read: words and texts, and members of classes.
METHOD = "λ c ts r h l. let y = method_parts know %s (λ s b w u. refl) s k f m i (found k) (found f) c ts r h l in ((tt, y.0, y.1), y.2)"
FIELD = "λ c ts r h l. let y = field know %s (λ s b w u. refl) s k v i ds (found k) (found v) c ts r h l in ((tt, y.0, y.1, y.2), y.3)"
READ = {
    "this_expr": "λ c ts r h l. (tt, word know c _ ts r h.0 l)",
    "null_lit": "λ c ts r h l. (tt, word know c _ ts r h.0 l)",
    "bool_lit": "λ c ts r h l. (tt, word know c _ ts r h.0 l)",
    "ident": "word_found s k mode n whole",
    "ident_name": "key_found s k mode n whole",
    "private_name": "private_found s k mode n whole",
    "str_lit": "string_found s u w mode n whole",
    "number_lit": "number_found s v w mode n whole",
    "big_int_lit": "big_found s b ds w mode n whole",
    "regex_lit": "pattern_found s e f mode n whole",
    "tpl_element": "λ c ts r h l. absurd (true≢false whole)",
    "(yield_expr s absent g)": "λ c ts r h l. ((tt, tt), word know c _ ts r h.1.1 l)",
    "binding_ident": "bound_found s t k mode n whole",
    "expr_pat": "λ c ts r h l. let y = found e Plain refl (whole_test know (λ t. is_target_expr t && is_simple t) e (λ s b w u. refl) h.0) c ts r h.1 l in ((tt, y.0), y.1)",
    "class_method": METHOD % "is_key",
    "private_method": METHOD % "is_private",
    "class_prop": FIELD % "is_key",
    "private_prop": FIELD % "is_private",
    "empty_stmt": "λ c ts r h l. (tt, took know c _ ts r h.0 l)",
}


def split(text):
    """The arguments of a call."""
    out, depth, part = [], 0, ""
    for c in text:
        depth += c == "("
        depth -= c == ")"
        if c == " " and not depth:
            out.append(part)
            part = ""
        else:
            part += c
    return [a for a in out + [part] if a]


# A variable of a pattern: any name but a constructor's, which stands behind a parenthesis, or is one of an absent part.
VARIABLE = re.compile(r"(?<=[ ])(?!absent\b)\w+")


class Production:
    """A clause of the grammar: the pattern of a tree, what it produces, and of what."""

    def __init__(self, pattern, text):
        first = re.match(r"\([^()]* ≡ [^()]*\) × (.*)$", text)
        # whether more is asked than the production
        self.is_second = bool(first)
        call = split(first.group(1) if first else text)
        self.pattern = pattern
        self.kind = re.match(r"\(?(\w+)", pattern).group(1)
        self.name = call[0]
        self.args = call[1:-2] if call[-2:] == ["ts", "r"] else call[1:]

    def own(self, owns, without=None):
        return owns.get(self.pattern, owns.get(self.kind, without))

    def renamed(self, pattern):
        """The clause with the variables of another pattern of its tree."""
        names = dict(zip(VARIABLE.findall(self.pattern), VARIABLE.findall(pattern)))
        out = copy.copy(self)
        out.pattern = pattern
        out.args = [re.sub(r"(?<![\w.])\w+(?!\w)", lambda it: names.get(it[0], it[0]), arg) for arg in self.args]
        return out

    def other(self):
        """The pattern of the kind's trees that this one leaves, if it leaves some."""
        head, *args = split(self.pattern[1:-1])
        blank = ["_" if a.startswith("(") or a == "absent" else a for a in args]
        return None if blank == args else "(%s)" % " ".join([head] + blank)


def productions(text):
    """The grammar's clauses."""
    found = re.findall(r"^  Produces (\(.*\)) c ts r = (.*)$", text, re.M)
    return [Production(pattern, says) for pattern, says in found]


def families(text):
    """The module of the grammar that each production stands in."""
    found = re.findall(r"^use Rattle\.grammar_spec\.specs\.(\w+)\.\{(.*)\}$", text, re.M)
    return {name: module for module, names in found for name in names.split(", ")}


def held(arg):
    """The child that an argument is, or the children: its variable, and whether there may be many."""
    match = re.fullmatch(r"\((child|children) (\w+)(?: \(λ y\. Produces \2 y\))?\)", arg)
    return (match.group(2), match.group(1) == "children") if match else None


def nested(arg):
    """The production that an argument is, as a relation of its ends."""
    match = re.fullmatch(r"\(λ m n\. (.*) m n\)", arg)
    return split(match.group(1)) if match else None


def short(name):
    return SHORT.get(name, snake(name))


class Proof:
    """A proof by productions: a clause for each, and one for what a kind has beside its productions."""

    def __init__(self, grammar):
        self.productions = productions(grammar)
        self.families = families(grammar)

    def part(self, file, name, owns, clause, absurd, productions=None):
        """The clauses in the grammar's order. Behind those of a kind that all ask for a kind of part stands one for all others."""
        clauses, lemmas = [], {}
        productions = productions or self.productions
        for it in productions:
            text = clause(it)
            clauses.append(text)
            of_kind = [x.other() for x in productions if x.kind == it.kind]
            if all(of_kind) and it is [x for x in productions if x.kind == it.kind][-1]:
                clauses.append(absurd % of_kind[-1])
            if not it.own(owns):
                family = self.families[it.name]
                family = "Expressions" if family == "Patterns" and file in WITH_EXPRESSIONS else family
                lemmas[text.partition(" = ")[2].split(" ")[0]] = MODULES[file] % family
        part = definition(file, name, clauses, [absurd % "_"])
        part.lemmas = lemmas
        return part

    # ---- that braces match

    def walked(self, call):
        """The lemma of a production, and what it is asked with."""
        name, args, out = call[0], call[1:], []
        for arg in args:
            child, relation = held(arg), nested(arg)
            out.append(arg)
            if arg == "c":
                out.append("pl")
            elif child:
                template = name in ("TemplateLiteral", "TaggedTemplate") and child[0] == "qs"
                out.append("(%s %s)" % ("quasis" if template else "walks" if child[1] else "walk", child[0]))
            elif relation:
                out.append("(λ yg ym yn yh. %s yg ym yn yh)" % self.walked(relation))
            elif arg in ASKED:
                out.append(ASKED[arg])
            elif name in ("Keyword", "Jump") and arg.endswith("_kind"):
                out.append("(plain %s refl refl refl refl refl refl refl)" % arg)
            elif name == "Bracketed" and arg.endswith("_level"):
                out.append("(omega arith)")
            elif arg.startswith("(function_parts "):
                wanted = " ".join([name] + ["o" if a == arg else a for a in args])
                out[-1:] = ["(has_parts f (λ q. subst (λ (o : Option FunctionParts). %s ts r) q hh))" % wanted, arg]
            elif arg.startswith("(class_span "):
                out[-1:] = ["(has_span k s hh.5)", arg]
        return " ".join([snake(name) + "_walk"] + out)

    def walk(self, it):
        says = it.own(WALK) or "%s gs ts r hh%s" % (self.walked([it.name] + it.args), ".1" if it.is_second else "")
        return "%s c pl gs ts r pp hh = %s" % (it.pattern, says)

    # ---- that a tree produces its tokens at another place

    def moves(self, args, name):
        """What is known of the children, in their order. Decorators have none, and of a tagged template nothing else has."""
        out = []
        for arg in args:
            child, relation = held(arg), nested(arg)
            if child and not (child[1] and child[0] == "ds" and name not in BINDINGS):
                out.append("(%s %s)" % ("moves" if child[1] else "move", child[0]))
            elif relation:
                out.append("(%s)" % self.moved(relation))
        return out

    def moved(self, call):
        name, args = call[0], call[1:]
        given, turned = [], []
        for arg in args:
            relation = nested(arg)
            if relation:
                given.append("(%s)" % " ".join(relation))
                turned.append("(%s)" % " ".join("(placing p c)" if a == "c" else a for a in relation))
            else:
                given.append(arg)
        # the relations that stand before one another stand before those of the other place
        if turned:
            last = max(n for n, arg in enumerate(args) if nested(arg))
            given[last + 1 : last + 1] = turned
        return " ".join([short(name), "p", "kin"] + given + self.moves(args, name))

    def move(self, it):
        says = it.own(MOVE) or self.moved([it.name] + it.args)
        return "%s c = %s" % (it.pattern, says)

    # ---- that what is produced can be printed

    def good(self, it):
        says = it.own(GOOD)
        if not says:
            name = PRINTED_SHORT.get(it.kind) or PRINTED_SHORT.get(it.name) or short(it.name)
            says = self.printed(name, [it.name] + it.args, fields(it))
        return "%s c = %s" % (it.pattern, says)

    def printed(self, name, call, trees):
        """The lemma of a production with the fields of its tree, and what is known of its children. Decorators and the texts of a
        template are printed as they are."""
        args, out, relations = call[1:], [], [arg for arg in call if nested(arg)]
        before = [a for a in args[: args.index("c")] if not a.startswith("is_") and not a.endswith("_kind)") and not a.endswith("_kind")]
        for arg in args:
            child = held(arg)
            if arg in relations:
                if arg is relations[0]:
                    out += ["c"] + ["_"] * len(relations)
                relation = nested(arg)
                out.append("(%s)" % self.printed(short(relation[0]), relation, variables(relation)))
            elif child and child[0] != "qs" and not (child == ("ds", True) and call[0] not in BINDINGS):
                parts_of = any(a in ("(function_parts %s)" % child[0], "(class_span %s)" % child[0]) for a in args)
                out.append("(%s %s)" % ("goods" if child[1] else "inner" if parts_of else "good", child[0]))
        return " ".join([name, "look"] + before + trees + out + ([] if relations else ["c"]))


    # ---- what a tree that was read was read of

    def found(self, it):
        says = it.own(READ)
        if not says:
            name = FOUND_SHORT.get(it.kind) or FOUND_SHORT.get(it.name) or snake(it.name)
            others = [x for x in self.productions if x.kind == it.kind and x.name != it.name]
            is_rest = any(nested(arg) for arg in it.args) or others and not it.other()
            says = " ".join([name + "_found", "know"] + fields(it) + self.known(it.name, it.args) + (["mode"] if is_rest else ["mode n whole"]))
        return "%s mode n whole = %s" % (it.pattern, says)

    def known(self, name, args):
        """What is known of the children, behind as many `_` as there are relations."""
        out = ["_" for arg in args if nested(arg)]
        for arg in args:
            child, relation = held(arg), nested(arg)
            if child and child[0] != "qs" and not (child == ("ds", True) and name not in BINDINGS):
                out.append("(%s %s)" % ("all_found" if child[1] else "found", child[0]))
            elif relation:
                asked = [a for a in relation[1 : relation.index("c")] for a in ([a, "refl"] if a.endswith("_level") else [a])]
                given = asked + variables(relation)
                out.append("(%s)" % " ".join([short(relation[0]), "know"] + given + self.known(relation[0], relation[1:])))
        return out

    def as_they_stand(self, file, name):
        """The clauses in the order and with the variables of a proof that stands there."""
        standing = re.findall(r"^ *%s (\(.*?\)) mode n whole = " % name, read(file), re.M)
        shapes = {VARIABLE.sub("_", pattern): at for at, pattern in enumerate(standing) if not re.search(r" _[ )]", pattern)}
        out, at = [], 0
        for it in self.productions:
            at = shapes.get(VARIABLE.sub("_", it.pattern), at)
            stands = VARIABLE.sub("_", it.pattern) in shapes
            out.append((at, it.renamed(standing[at] if stands else re.sub(r"\bn\b", "k", it.pattern))))
        return [it for _, it in sorted(out, key=lambda pair: pair[0])]


def fields(it):
    """The fields of a production's tree. Of a part that is asked for its kind its fields stand there, but for a key in brackets and the
    head of a loop, which are trees of their own."""

    def flat(pattern):
        out = []
        for arg in split(pattern[1:-1])[1:]:
            is_head = it.name in ("ForIn", "ForOf") or arg.startswith("(computed_prop_name ")
            out += flat(arg) if arg.startswith("(") and not is_head else [] if arg == "absent" else [arg]
        return out

    return flat(it.pattern)


def variables(call):
    """The arguments of a relation behind its code, and before it but for what is given there."""
    args = call[1 + call[1:].index("c") + 1 :]
    return [held(a)[0] if held(a) else a for a in args]


# Productions whose list `ds` is one of declarators, and not of decorators.
BINDINGS = ("Variables", "Using", "ForVariables", "ForUsing", "HeadVariables", "HeadUsing")


def parts(table):
    proof = Proof(read(GRAMMAR))
    return [
        proof.part(BRACES, "walk", WALK, proof.walk, "%s c pl gs ts r pp hh = absurd hh"),
        proof.part(PLACED, "move", MOVE, proof.move, "%s c = λ ts r o h g. absurd h"),
        proof.part(PRINTED, "good", GOOD, proof.good, "%s c = λ ts r h. absurd h"),
        proof.part(FOUND, "found", READ, proof.found, "%s mode n whole = λ c ts r h l. absurd h", proof.as_they_stand(FOUND, "found")),
    ]
