# crates.txt to a picture for Graphviz: layers by the longest way from a crate that needs no other, arrows without those that follow from others.
# crates.txt lists with a crate what its files name, near and far; a word that is no crate there, as `staticlib`, is left out.

/^#/ || NF == 0 { next }
{
    name = $1
    sub(/:$/, "", name)
    order[++count] = name
    number[name] = count
    for (i = 2; i <= NF; i++)
        needs[name, $i] = 1
}

END {
    # crates stand behind those that they need, so one pass settles the layers
    for (i = 1; i <= count; i++)
        for (j = 1; j < i; j++)
            if (needs[order[i], order[j]] && layer[i] < layer[j] + 1)
                layer[i] = layer[j] + 1
    for (i = 1; i <= count; i++)
        if (layer[i] > deepest)
            deepest = layer[i]
    dot()
}

# whether crate i needs crate j, and needs no other crate that needs j
function direct(i, j,    k) {
    if (!needs[order[i], order[j]])
        return 0
    for (k = 1; k <= count; k++)
        if (needs[order[i], order[k]] && needs[order[k], order[j]])
            return 0
    return 1
}

function dot(    i, j, l, line) {
    print "// By scripts/picture, from crates.txt."
    print "digraph crates {"
    print "    node [shape=box, fontname=\"sans-serif\"];"
    for (l = 0; l <= deepest; l++) {
        line = "    { rank=same;"
        for (i = 1; i <= count; i++)
            if (layer[i] == l)
                line = line " \"" order[i] "\";"
        print line " }"
    }
    for (i = 1; i <= count; i++)
        for (j = 1; j < i; j++)
            if (direct(i, j))
                printf "    \"%s\" -> \"%s\";\n", order[j], order[i]
    print "}"
}
