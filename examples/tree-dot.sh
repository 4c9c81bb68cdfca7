#!/bin/sh
# Turns the answer of `dcop tree` into a picture for Graphviz.
#
# usage: dcop tree < tracking.dcop | ./tree-dot.sh | dot -Tsvg > tree.svg
#
# A full line leads from a parent to its child. A dashed line leads from a variable up to another
# one of its separator, with which it, or a variable below it, shares a table or a joint.
# What is not the answer of `tree`, whole, is refused with exit 1, and no picture is written.
exec awk '
function fail(why) {
    print "tree-dot: " why > "/dev/stderr"
    failed = 1
    exit 1
}
NR == 1 && $0 != "status tree" { fail("this is not the answer of tree: " $0) }
NR == 2 && $1 != "deliveries" { fail("line 2 is not the deliveries: " $0) }
NR <= 2 { next }
ended { fail("line " NR " stands behind end: " $0) }
$0 == "end" { ended = 1; next }
$1 != "node" || $3 != "parent" || $5 != "separator" { fail("line " NR " is no node: " $0) }
{
    picture = picture "    \"" $2 "\"\n"
    if ($4 != "-") picture = picture "    \"" $4 "\" -- \"" $2 "\"\n"
    for (i = 6; i <= NF; i++)
        if ($i != $4) picture = picture "    \"" $i "\" -- \"" $2 "\" [style=dashed, constraint=false]\n"
}
END {
    if (failed) exit 1
    if (!ended) {
        print "tree-dot: the answer has no end" > "/dev/stderr"
        exit 1
    }
    printf "graph tree {\n    node [shape=circle]\n%s}\n", picture
}
'
