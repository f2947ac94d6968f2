"""Writes from the table a tree without what its layout doesn't depend on: places and raw texts."""

from clauses import definition, kinds

BARE = "crates/print_layout_laws/specs/Bare.antt"

PLACES = {"Span": "(kept_place places %s)", "Option Span": "(kept_spread places %s)"}

# The raw texts that are dropped. That of a template's text is kept.
RAWS = {"str_lit": "(kept_string raws units raw)", "number_lit": "(kept_raw raws raw)", "big_int_lit": "(kept_raw raws raw)"}


def bare(kind):
    new = []
    for a, t in zip(kind.args, kind.types):
        if a == "raw" and kind.name in RAWS:
            new.append(RAWS[kind.name])
        elif t in PLACES:
            new.append(PLACES[t] % a)
        else:
            new.append({"Tree": "(bare %s)", "Trees": "(bares %s)"}.get(t, "%s") % a)
    return "%s = %s" % (kind, " ".join([kind.name] + new))


def parts(table):
    return [definition(BARE, "bare", map(bare, kinds(table)))]
