"""Writes from the table the clauses of proofs that hold of each variant of an enum by what its tree is."""

from clauses import definition

# Each proof: its file, its name, its enum, and a clause with `%s` for a variant.
PROOFS = [
    ("crates/tree_nodes/proofs/Spines.antt", "literal_stays", "Lit", "%s = refl"),
    ("crates/tree_nodes/proofs/Spines.antt", "literal_is_none", "Lit", "%s = refl"),
    ("crates/tree_nodes/proofs/Spines.antt", "declaration_is_there", "Decl", "%s = refl"),
    ("crates/tree_nodes/proofs/Spines.antt", "declaration_stays", "Decl", "%s = refl"),
    ("crates/tree_nesting/proofs/IfLemmas.antt", "lit_no_if", "Lit", "%s = refl"),
    ("crates/tree_nesting/proofs/IfLemmas.antt", "decl_no_if", "Decl", "%s = refl"),
    ("crates/tree_nesting/proofs/IfLemmas.antt", "expr_no_if", "ExprKind", "%s = refl"),
    ("crates/tree_nesting/proofs/IfLemmas.antt", "pat_no_if", "PatKind", "%s = refl"),
    ("crates/tree_visit/proofs/spine/Chains.antt", "literal_stays", "Lit", "%s = refl"),
    ("crates/tree_visit/proofs/spine/Chains.antt", "literal_is_none", "Lit", "%s = refl"),
    ("crates/tree_visit/proofs/spine/Chains.antt", "literal_is_no_word", "Lit", "%s = refl"),
    ("crates/tree_visit/proofs/Chains.antt", "literal_entered", "Lit", "%s s = refl"),
    ("crates/tree_visit/proofs/Chains.antt", "literal_has_no_rest", "Lit", "%s s = refl"),
    ("crates/tree_same/proofs/Mixed.antt", "no_node", "ModuleDecl", "f %s = refl"),
    ("crates/parse_objects/proofs/Rests.antt", "no_spread", "Prop", "%s = refl"),
    ("crates/parse_classes/proofs/Keys.antt", "no_private", "PropName", "f %s = refl"),
    ("crates/print_nodes/proofs/Spines.antt", "literal_before", "Lit", "s %s = refl"),
    ("crates/print_nodes/proofs/Spines.antt", "literal_stands", "Lit", "%s = refl"),
    ("crates/print_nodes/proofs/Spines.antt", "literal_names", "Lit", "%s = refl"),
]

# Clauses of variants that are enums themselves.
OWN = {("expr_no_if", "Lit"): "%s = lit_no_if x"}


def parts(table):
    out = []
    for file, name, enum, clause in PROOFS:
        clauses = [OWN.get((name, v), clause) % "(%s.%s x)" % (enum, v) for v, _ in table.variants_of[enum]]
        out.append(definition(file, name, clauses))
    return out
