"""Writes from the table the arms by which code goes on from an enum to what its variants hold."""

from clauses import Part

PRINT = "crates/print_nodes/src/%s.rt"
CHECK = "crates/judge/src/faults/%s.rt"

PRINTED = "x.print(p, look, stand)"
CHECKED = "x.check(code, faults)"
REFUSED = "p.refuse()"
CLEAN = "Ok(())"

# Each enum's file, what its arms do, and what they do of variants of which that isn't asked.
ARMS = [
    (PRINT % "kinds", "ExprKind", PRINTED, {"Invalid": REFUSED}),
    (PRINT % "kinds", "StmtKind", PRINTED, {}),
    (PRINT % "kinds", "PatKind", PRINTED, {"Expr": "x.print(p, look, Stand::Alone)", "Invalid": REFUSED}),
    (PRINT % "programs", "ModuleDecl", PRINTED, {}),
    (PRINT % "specifiers", "ImportSpecifier", PRINTED, {}),
    (PRINT % "specifiers", "ExportSpecifier", PRINTED, {}),
    (PRINT % "classes", "Decl", PRINTED, {}),
    (PRINT % "fors", "VarDeclOrExpr", PRINTED, {}),
    (PRINT % "fors", "ForHead", PRINTED, {}),
    (PRINT % "members", "ClassMember", PRINTED, {}),
    (PRINT % "keys", "PropName", PRINTED, {}),
    (PRINT % "keys", "PropName", "x.span", {}),
    (PRINT % "calls", "Callee", PRINTED, {}),
    (PRINT % "chains", "MemberProp", PRINTED, {}),
    (PRINT % "literals", "Lit", PRINTED, {}),
    (PRINT % "properties", "Prop", PRINTED, {}),
    (PRINT % "properties", "ObjectPatProp", PRINTED, {}),
    (PRINT % "assignments", "AssignTarget", PRINTED, {"Invalid": REFUSED}),
    (CHECK % "expressions", "ExprKind", CHECKED, dict.fromkeys(["This", "PrivateName", "Invalid"], CLEAN)),
    (CHECK % "expressions", "Callee", CHECKED, dict.fromkeys(["Super", "Import"], CLEAN)),
    (CHECK % "expressions", "MemberProp", CHECKED, dict.fromkeys(["Ident", "PrivateName"], CLEAN)),
    (CHECK % "statements", "StmtKind", CHECKED, dict.fromkeys(["Empty", "Debugger"], CLEAN)),
    (CHECK % "statements", "VarDeclOrExpr", CHECKED, {}),
    (CHECK % "statements", "ForHead", CHECKED, {}),
    (CHECK % "declarations", "Decl", CHECKED, {}),
    (CHECK % "functions", "ClassMember", CHECKED, {"Empty": CLEAN}),
    (CHECK % "functions", "PropName", CHECKED, dict.fromkeys(["Ident", "BigInt"], CLEAN)),
    (CHECK % "objects", "Prop", CHECKED, {}),
    (CHECK % "literals", "Lit", CHECKED, dict.fromkeys(["Bool", "Null", "BigInt", "Regex"], CLEAN)),
    (CHECK % "patterns", "ObjectPatProp", CHECKED, {}),
    (CHECK % "patterns", "AssignTarget", CHECKED, {"Invalid": CLEAN}),
    (CHECK % "programs", "ModuleDecl", CHECKED, {}),
    (CHECK % "programs", "ImportSpecifier", CHECKED, {}),
]


def parts(table):
    out = []
    for file, enum, does, others in ARMS:
        own = enum + "Of" if table.is_generic(enum) else enum
        arms = []
        for variant, _ in table.variants_of[enum]:
            what = others.get(variant, does)
            arms.append("%s::%s(%s) => %s," % (own, variant, "x" if what.startswith("x.") else "_", what))
        # what arms of this run begin to do, which tells it from others of the enum
        begun = {what.split("(")[0] for what in (does, *others.values())}
        begins = r" *%s::\w+\([x_]\) => (%s)\b" % (own, "|".join(x.replace(".", r"\.") for x in sorted(begun)))
        out.append(Part(file, "%s, %s" % (enum, does), arms, begins=begins))
    return out
