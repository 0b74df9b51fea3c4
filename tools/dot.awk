# A table's bytes, one a line, then the line `listing` and its listing, as a graph in Graphviz's language.
# Schedulers are boxes, tasks ovals, locks hexagons, accesses notes; each race is an edge in red, each illegal lock one in orange.
$1 == "listing" { listed = 1; next }
!listed { bytes[count++] = $1; next }
$1 == "race" { races[race++] = $3 " " $5 }
$1 == "illegal" && NF == 4 { illegals[illegal++] = $2 " " $4 }

function next_byte() { return bytes[at++] }

# The locks of a set of four bytes, high byte first; fills held[lock].
function set_of(    i, k, v, text) {
    split("", held)
    text = ""
    for (i = 3; i >= 0; i--) part[i] = next_byte()
    for (i = 0; i < 4; i++)
        for (k = 0; k < 8; k++)
            if (int(part[i] / 2 ^ k) % 2) {
                held[i * 8 + k] = 1
                text = text (text == "" ? "" : ", ") (i * 8 + k)
            }
    return text
}

END {
    split("task preemptive non-preemptive FIFO time-sliced", kinds, " ")
    print "digraph table {"
    print "    rankdir=TB; node [fontname=\"sans-serif\", fontsize=11]; edge [fontname=\"sans-serif\", fontsize=9];"
    at = 1
    nodes = next_byte()
    for (n = 0; n < nodes; n++) {
        parent = next_byte()
        kind = next_byte()
        if (kind == 0) printf "    n%d [shape=oval, label=\"task %d\"];\n", n, n
        else printf "    n%d [shape=box, style=filled, fillcolor=lightgrey, label=\"%d %s\"];\n", n, n, kinds[kind + 1]
        if (n > 0) printf "    n%d -> n%d;\n", parent, n
    }
    locks = next_byte()
    for (k = 0; k < locks; k++) {
        provider = next_byte()
        kind = next_byte()
        covered = next_byte()
        printf "    l%d [shape=hexagon, label=\"%s %d\"];\n", k, kind ? "mask" : "lock", k
        printf "    n%d -> l%d [style=dotted, arrowhead=none];\n", provider, k
        if (kind) printf "    l%d -> n%d [style=dashed, label=\"covers\"];\n", k, covered
    }
    resources = next_byte()
    for (r = 0; r < resources; r++) {
        high = next_byte()
        label[r] = high * 256 + next_byte()
    }
    accesses = next_byte()
    for (i = 0; i < accesses; i++) {
        task = next_byte()
        resource = next_byte()
        set = set_of()
        printf "    a%d [shape=note, label=\"access %d\\nresource %d, label %d\\n%s\"];\n", i, i, resource, label[resource], set == "" ? "no lock" : "locks " set
        printf "    n%d -> a%d [style=dotted, arrowhead=none];\n", task, i
    }
    for (r = 0; r < race; r++) {
        split(races[r], pair, " ")
        printf "    a%d -> a%d [color=red, constraint=false];\n", pair[1], pair[2]
    }
    for (r = 0; r < illegal; r++) {
        split(illegals[r], pair, " ")
        printf "    a%d -> l%d [color=orange, constraint=false, label=\"illegal\"];\n", pair[1], pair[2]
    }
    print "}"
}
