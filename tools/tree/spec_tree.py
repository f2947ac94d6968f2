"""Writes the spec tree, its places, its folds and its code from the table."""

from table import Table, tree_name

OUT = "crates/tree_spec/specs"
WIDTH = 110


def comment(text):
    return "-- " + text + "\n"


def imports(module, names, width=0):
    return "use %s.{%s}\n" % (module, ", ".join(names))


def arguments(fields):
    """Names for the fields of a pattern."""
    taken = {"list", "absent", "hole", "none", "more", "function", "class", "param", "ident", "tpl"}
    return [f + "_" if f in taken else f for f, _ in fields]


def pattern(name, args):
    return "(%s)" % " ".join([name] + args) if args else name


GROUPS = [
    ("Script", "programs and modules (16.1 and 16.2)"),
    ("BlockStmt", "statements (clause 14)"),
    ("ClassDecl", "declarations"),
    ("Function", "functions and classes (clause 15)"),
    ("ThisExpr", "expressions (clause 13)"),
    ("KeyValueProp", "properties of objects (13.2.5)"),
    ("Str", "literals (13.2.3)"),
    ("BindingIdent", "patterns (13.15.5 and 14.3.3)"),
    ("PatKind::Expr", "an expression as a target, which has the place of the expression; what could not be read, as a pattern or a target"),
    ("a list that may be absent", "a list that may be left out, where it is there; a part, and an element of a list, that is left out"),
]


def tree_module(table):
    heads = dict(GROUPS)
    out = [
        comment("The syntax tree as definitions see it (ECMA-262, clauses 12 to 16): one constructor for each struct of the"),
        comment("code's tree, with its place and its fields in the table's order. Texts are bytes, values of strings are"),
        comment("UTF-16 units, operators and other words are kinds of tokens. A `Trees` is a list of trees."),
        imports("Rattle.std.specs.Prelude", ["ℕ", "Bool", "List", "[]", "◌∷◌", "Option", "Some", "None"]),
        imports("Rattle.base_token.specs.declared.place.Span", ["Span"]),
        imports("Rattle.base_token.specs.Numbers", ["SpecNumber"]),
        "\nmutual\n  pub data Tree : Type 0 where\n",
    ]
    for name, struct, fields in table.trees():
        if struct in heads:
            out.append("    -- %s\n" % heads[struct])
        parts = []
        for f, t in fields:
            parts.append(t)
        out.append("    %s : %s\n" % (name, " → ".join(parts + ["Tree"])))
    out.append("\n  pub data Trees : Type 0 where\n    none : Trees\n    more : Tree → Trees → Trees\n")
    out.append("""
-- the kind of a method that is no getter and no setter; those are `get_kind` and `set_kind`
abbrev pub plain_method : ℕ
plain_method = 0

-- what stands for each element of a list
abbrev pub trees_by : {A : Type 0} → (A → Tree) → List A → Trees
trees_by f [] = none
trees_by f (x ∷ xs) = more (f x) (trees_by f xs)

-- what stands for a part that may be left out
abbrev pub part_by : {A : Type 0} → (A → Tree) → Option A → Tree
part_by f None = absent
part_by f (Some x) = f x

-- what stands for an element that may be left out
abbrev pub element_by : {A : Type 0} → (A → Tree) → Option A → Tree
element_by f None = hole
element_by f (Some x) = f x

-- a list of trees, and its trees
abbrev pub pack : List Tree → Trees
pack ts = trees_by (λ t. t) ts

abbrev pub unpack : Trees → List Tree
unpack none = []
unpack (more t ts) = t ∷ unpack ts
""")
    return "".join(out)


def all_names(table):
    return [name for name, _, _ in table.trees()]


def tree_imports(table, more=()):
    return imports("Rattle.tree_spec.specs.Tree", ["Tree", "Trees", "none", "more"] + all_names(table) + list(more))


def places_module(table):
    out = [
        comment("Where a tree stands in the text."),
        imports("Rattle.std.specs.Prelude", ["ℕ"]),
        imports("Rattle.base_token.specs.declared.place.Span", ["Span"]),
        imports("Rattle.base_token.specs.declared.place.BytePos", ["BytePos"]),
        tree_imports(table),
        """
-- no place
abbrev pub no_place : Span
no_place = record { lo = record { 0 = 0 }; hi = record { 0 = 0 } }

-- the place of a tree
abbrev pub place_of : Tree → Span
""",
    ]
    for name, struct, fields in table.trees():
        args = ["span"] + ["_"] * (len(fields) - 1)
        if struct == "PatKind::Expr":
            out.append("place_of (expr_pat expr) = place_of expr\n")
        elif fields and fields[0] == ("span", "Span"):
            out.append("place_of %s = span\n" % pattern(name, args))
        else:
            out.append("place_of %s = no_place\n" % pattern(name, ["_"] * len(fields)))
    return "".join(out)


def folds_module(table):
    out = [
        comment("A tree from its leaves up. A definition that treats most kinds alike is a clause for each kind that it"),
        comment("treats otherwise, and `fold` or `rebuild`."),
        imports("Rattle.std.specs.Prelude", ["ℕ", "List", "[]", "◌∷◌", "Option", "Some", "None"]),
        imports("Rattle.base_token.specs.declared.place.Span", ["Span"]),
        tree_imports(table),
        """
-- `fold step t`: `step` is given a tree and, for each field that holds trees, what came of these, in the
-- table's order: a list of one for a child, of all for a list
abbrev mutual
  pub fold : {A : Type 0} → (Tree → List (List A) → A) → Tree → A
""",
    ]
    for name, struct, fields in table.trees():
        args = arguments(fields)
        kids = []
        for a, (f, t) in zip(args, fields):
            if t == "Tree":
                kids.append("(fold step %s ∷ []) ∷ " % a)
            elif t == "Trees":
                kids.append("folds step %s ∷ " % a)
        tree = pattern(name, args)
        results = "(%s[])" % "".join(kids) if kids else "[]"
        out.append("  fold step %s = step %s %s\n" % (tree, tree, results))
    out.append("""
  pub folds : {A : Type 0} → (Tree → List (List A) → A) → Trees → List A
  folds step none = []
  folds step (more t ts) = fold step t ∷ folds step ts

-- a place that may be left out
abbrev pub placed : (Span → Span) → Option Span → Option Span
placed place None = None
placed place (Some span) = Some (place span)

-- `rebuild place change t`: each place is changed by `place`, and then each tree, after its parts, by `change`
abbrev mutual
  pub rebuild : (Span → Span) → (Tree → Tree) → Tree → Tree
""")
    for name, struct, fields in table.trees():
        args = arguments(fields)
        new = []
        for a, (f, t) in zip(args, fields):
            if t == "Tree":
                new.append("(rebuild place change %s)" % a)
            elif t == "Trees":
                new.append("(rebuild_all place change %s)" % a)
            elif t == "Span":
                new.append("(place %s)" % a)
            elif t == "Option Span":
                new.append("(placed place %s)" % a)
            else:
                new.append(a)
        out.append("  rebuild place change %s = change %s\n" % (pattern(name, args), pattern(name, new)))
    out.append("""
  pub rebuild_all : (Span → Span) → (Tree → Tree) → Trees → Trees
  rebuild_all place change none = none
  rebuild_all place change (more t ts) = more (rebuild place change t) (rebuild_all place change ts)
""")
    return "".join(out)


PUT = {
    "Span": "put_span %s",
    "List ℕ": "%s",
    "ℕ": "(%s ∷ [])",
    "Bool": "put_bool %s",
    "SpecNumber": "put_number %s",
    "Option (List ℕ)": "put_text %s",
    "Option Span": "put_place %s",
}

GET = {
    "Span": "(get_span %s)",
    "List ℕ": "%s",
    "ℕ": "(get_word %s)",
    "Bool": "(get_bool %s)",
    "SpecNumber": "(get_number %s)",
    "Option (List ℕ)": "(get_text %s)",
    "Option Span": "(get_place %s)",
    "Tree": "%s",
    "Trees": "(items_of %s)",
}

# what of a field has to be read back by a lemma, and not by computing
BACK = {
    "Bool": "(bool_back %s i)",
    "SpecNumber": "(number_back %s i)",
    "Option (List ℕ)": "(text_back %s i)",
    "Option Span": "(place_back %s i)",
    "Tree": "(tree_back %s i)",
    "Trees": "(trees_back %s i)",
}


def choose(cases, low=0):
    """A search tree over kinds."""
    if len(cases) == 1:
        return cases[0]
    half = len(cases) // 2
    left, right = choose(cases[:half], low), choose(cases[half:], low + half)
    return "elim (nat_lt k %d) [ true ↦ %s | false ↦ %s ]" % (low + half, left, right)


def build_functions(table):
    """The kinds in groups of eight, each a function, and one function over the groups."""
    trees = table.trees()
    cases = []
    for name, struct, fields in trees:
        new, says, kids = [], 0, 0
        for f, t in fields:
            if t in ("Tree", "Trees"):
                at = "(at %d kids)" % kids
                kids += 1
            else:
                at = "(said %d says)" % says
                says += 1
            new.append(GET[t] % at)
        cases.append(" ".join([name] + new))
    return cases


def codes_module(table):
    trees = table.trees()
    out = [
        comment("The size of a tree, where each tree counts two, since a child has a place around it; and its code, by which"),
        comment("proofs tell trees apart: a plain tree of numbers and, of that, a list in postfix order, read back by two"),
        comment("stacks."),
        imports("Rattle.std.specs.Prelude", ["ℕ", "zero", "suc", "◌+◌", "◌≡◌", "nat_lt", "List", "[]", "◌∷◌", "Bool", "true", "false", "Option", "Some", "None", "ℤ", "pos", "negsuc", "refl"]),
        imports("Rattle.std.specs.Coded", ["Coded", "code_by", "coded×", "coded_ℕ", "coded_list", "coded_option"]),
        imports("mathlib.Core.Path", ["◌∙◌"]),
        imports("Rattle.base_token.specs.declared.place.Span", ["Span"]),
        imports("Rattle.base_token.specs.declared.place.BytePos", ["BytePos"]),
        imports("Rattle.base_token.specs.Numbers", ["SpecNumber", "Scaled", "InRadix"]),
        tree_imports(table),
        """
-- twice how many trees a tree holds, itself included
abbrev mutual
  pub tree_size : Tree → ℕ
""",
    ]
    for name, struct, fields in trees:
        args = arguments(fields)
        sizes = []
        for a, (f, t) in zip(args, fields):
            if t == "Tree":
                sizes.append("tree_size %s + " % a)
            elif t == "Trees":
                sizes.append("trees_size %s + " % a)
        shown = [a if t in ("Tree", "Trees") else "_" for a, (f, t) in zip(args, fields)]
        out.append("  tree_size %s = %s2\n" % (pattern(name, shown), "".join(sizes)))
    out.append("""
  pub trees_size : Trees → ℕ
  trees_size none = 0
  trees_size (more t ts) = tree_size t + trees_size ts

-- a plain tree: a kind, what it says, and its parts
mutual
  pub data Node : Type 0 where
    node : ℕ → List (List ℕ) → Nodes → Node
    row : Nodes → Node

  pub data Nodes : Type 0 where
    no_nodes : Nodes
    nodes : Node → Nodes → Nodes

-- what a tree says, as numbers, and back
abbrev pub put_span : Span → List ℕ
put_span s = s.lo.0 ∷ s.hi.0 ∷ []

abbrev pub get_span : List ℕ → Span
get_span (lo ∷ hi ∷ _) = record { lo = record { 0 = lo }; hi = record { 0 = hi } }
get_span _ = record { lo = record { 0 = 0 }; hi = record { 0 = 0 } }

abbrev pub get_word : List ℕ → ℕ
get_word [] = 0
get_word (n ∷ _) = n

abbrev pub put_bool : Bool → List ℕ
put_bool true = 1 ∷ []
put_bool false = []

abbrev pub get_bool : List ℕ → Bool
get_bool [] = false
get_bool (_ ∷ _) = true

pub bool_back : (b : Bool) → get_bool (put_bool b) ≡ b
bool_back true = refl
bool_back false = refl

abbrev pub put_text : Option (List ℕ) → List ℕ
put_text None = []
put_text (Some text) = 1 ∷ text

abbrev pub get_text : List ℕ → Option (List ℕ)
get_text [] = None
get_text (_ ∷ text) = Some text

pub text_back : (o : Option (List ℕ)) → get_text (put_text o) ≡ o
text_back None = refl
text_back (Some text) = refl

abbrev pub put_place : Option Span → List ℕ
put_place None = []
put_place (Some span) = 1 ∷ put_span span

abbrev pub get_place : List ℕ → Option Span
get_place [] = None
get_place (_ ∷ span) = Some (get_span span)

pub place_back : (o : Option Span) → get_place (put_place o) ≡ o
place_back None = refl
place_back (Some span) = refl

abbrev pub put_scaled : List ℕ → ℤ → List ℕ
put_scaled digits (pos n) = 0 ∷ n ∷ digits
put_scaled digits (negsuc n) = 1 ∷ n ∷ digits

abbrev pub put_number : SpecNumber → List ℕ
put_number (Scaled digits exponent) = put_scaled digits exponent
put_number (InRadix radix digits) = 2 ∷ radix ∷ digits

abbrev pub number_by : ℕ → ℕ → List ℕ → SpecNumber
number_by k n digits = elim (nat_lt k 1) [ true ↦ Scaled digits (pos n) | false ↦ elim (nat_lt k 2) [ true ↦ Scaled digits (negsuc n) | false ↦ InRadix n digits ] ]

abbrev pub get_number : List ℕ → SpecNumber
get_number (k ∷ n ∷ digits) = number_by k n digits
get_number _ = InRadix 0 []

pub scaled_back : (digits : List ℕ) (x : ℤ) → get_number (put_scaled digits x) ≡ Scaled digits x
scaled_back digits (pos n) = refl
scaled_back digits (negsuc n) = refl

pub number_back : (x : SpecNumber) → get_number (put_number x) ≡ x
number_back (Scaled digits exponent) = scaled_back digits exponent
number_back (InRadix radix digits) = refl

-- what stands at an index
abbrev pub said : ℕ → List (List ℕ) → List ℕ
said n [] = []
said zero (x ∷ xs) = x
said (suc n) (x ∷ xs) = said n xs

abbrev pub at : ℕ → Trees → Tree
at n none = absent
at zero (more t ts) = t
at (suc n) (more t ts) = at n ts

abbrev pub items_of : Tree → Trees
items_of (list items) = items
items_of _ = none

-- a tree as a plain one
abbrev mutual
  pub to_node : Tree → Node
""")
    for k, (name, struct, fields) in enumerate(trees):
        args = arguments(fields)
        says = " ∷ ".join([PUT[t] % a for a, (f, t) in zip(args, fields) if t in PUT] + ["[]"])
        kids = "no_nodes"
        for a, (f, t) in reversed(list(zip(args, fields))):
            if t == "Tree":
                kids = "(nodes (to_node %s) %s)" % (a, kids)
            elif t == "Trees":
                kids = "(nodes (row (to_nodes %s)) %s)" % (a, kids)
        out.append("  to_node %s = node %d %s %s\n" % (pattern(name, args), k, "(%s)" % says if "∷" in says else says, kids))
    out.append("""
  pub to_nodes : Trees → Nodes
  to_nodes none = no_nodes
  to_nodes (more t ts) = nodes (to_node t) (to_nodes ts)

-- a tree of a kind, of what it says and its parts
""")
    cases = build_functions(table)
    out.append("abbrev pub build : ℕ → List (List ℕ) → Trees → Tree\n")
    out.append("build k says kids = %s\n" % choose(cases))
    out.append("""
abbrev mutual
  pub from_node : Node → Tree
  from_node (node k says kids) = build k says (from_nodes kids)
  from_node (row kids) = list (from_nodes kids)

  pub from_nodes : Nodes → Trees
  from_nodes no_nodes = none
  from_nodes (nodes x xs) = more (from_node x) (from_nodes xs)

mutual
  pub tree_back : (t : Tree) → from_node (to_node t) ≡ t
""")
    for name, struct, fields in trees:
        args = arguments(fields)
        new = [BACK[t] % a if t in BACK else a for a, (f, t) in zip(args, fields)]
        if new == args:
            out.append("  tree_back %s = refl\n" % pattern(name, args))
        else:
            out.append("  tree_back %s = λ i. %s\n" % (pattern(name, args), " ".join([name] + new)))
    out.append("""
  pub trees_back : (ts : Trees) → from_nodes (to_nodes ts) ≡ ts
  trees_back none = refl
  trees_back (more t ts) = λ i. more (tree_back t i) (trees_back ts i)

-- a plain tree in postfix order
abbrev pub Mark : Type 0
Mark = Option (Option (Option (ℕ × List (List ℕ))))

abbrev mutual
  pub put_node : Node → List Mark → List Mark
  put_node (row ns) acc = put_nodes ns (Some (Some None) ∷ acc)
  put_node (node k says ns) acc = put_nodes ns (Some (Some (Some (k, says))) ∷ acc)

  pub put_nodes : Nodes → List Mark → List Mark
  put_nodes no_nodes acc = None ∷ acc
  put_nodes (nodes n ns) acc = put_node n (put_nodes ns (Some None ∷ acc))

-- what a list in postfix order stands for, over what was read
abbrev pub read : List Mark → List Node → List Nodes → List Node
read [] ns fs = ns
read (None ∷ r) ns fs = read r ns (no_nodes ∷ fs)
read (Some None ∷ r) [] fs = []
read (Some None ∷ r) (n ∷ ns) [] = []
read (Some None ∷ r) (n ∷ ns) (f ∷ fs) = read r ns (nodes n f ∷ fs)
read (Some (Some o) ∷ r) ns [] = []
read (Some (Some None) ∷ r) ns (f ∷ fs) = read r (row f ∷ ns) fs
read (Some (Some (Some p)) ∷ r) ns (f ∷ fs) = read r (node p.0 p.1 f ∷ ns) fs

mutual
  pub read_node : (t : Node) (acc : List Mark) (ns : List Node) (fs : List Nodes) → read (put_node t acc) ns fs ≡ read acc (t ∷ ns) fs
  read_node (node k says us) acc ns fs = read_nodes us (Some (Some (Some (k, says))) ∷ acc) ns fs
  read_node (row us) acc ns fs = read_nodes us (Some (Some None) ∷ acc) ns fs

  pub read_nodes : (u : Nodes) (acc : List Mark) (ns : List Node) (fs : List Nodes) → read (put_nodes u acc) ns fs ≡ read acc ns (u ∷ fs)
  read_nodes no_nodes acc ns fs = refl
  read_nodes (nodes n u) acc ns fs = read_node n (put_nodes u (Some None ∷ acc)) ns fs ∙ read_nodes u (Some None ∷ acc) (n ∷ ns) fs

abbrev pub first : List Node → Node
first [] = row no_nodes
first (n ∷ ns) = n

pub first_same : (xs : List Node) (ys : List Node) → xs ≡ ys → first xs ≡ first ys
first_same xs ys p = λ i. first (p i)

abbrev pub node_code : Coded Node
node_code = code_by (List Mark) (coded_list (coded_option (coded_option (coded_option (coded× coded_ℕ (coded_list (coded_list coded_ℕ))))))) (λ n. put_node n []) (λ ms. first (read ms [] [])) (λ n. first_same _ _ (read_node n [] [] []))

-- the code of a tree
abbrev pub tree_code : Coded Tree
tree_code = code_by Node node_code to_node from_node tree_back
""")
    return "".join(out)


def files(table):
    return {
        OUT + "/Tree.antt": tree_module(table),
        OUT + "/Places.antt": places_module(table),
        OUT + "/Folds.antt": folds_module(table),
        OUT + "/Codes.antt": codes_module(table),
    }
