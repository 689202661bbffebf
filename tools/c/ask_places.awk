# Changes the text of a module of live maps. Each test whether a node's version is as it was, and each lock of a node, becomes a
# place with a number, and its result is asked of has_passed (tools/c/fibers.c). So one program can leave out any of them.
# The file `names` gets a line for each place: its number, what it is, and in which function.
#
#   awk -v names=FILE -f tools/c/ask_places.awk MODULE.ll

/^define / { match($0, /@"?[^"(]*/); within = substr($0, RSTART, RLENGTH); gsub(/^@"?|::<.*/, "", within) }

/^ *%[^ ]+ = call i1 @"live_nodes::node::(check|lock|reclaim)::</ {
    result = $1
    sub(/^ *%[^ ]+ = /, "")
    match($0, /node::[a-z]+/)
    print ++place, substr($0, RSTART + 6, RLENGTH - 6), "in", within > names
    print "  " result ".was = " $0
    print "  " result ".wide = zext i1 " result ".was to i32"
    print "  " result ".asked = call i32 @has_passed(i32 " place ", i32 " result ".wide)"
    print "  " result " = trunc i32 " result ".asked to i1"
    next
}

{ print }

END { print "declare i32 @has_passed(i32, i32)" }
