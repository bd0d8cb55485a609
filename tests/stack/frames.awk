# An upper bound of each exported call's stack, from the machine code alone: the frames along the deepest chain of calls, as
# "function bytes". Runs after tests/c/functions.awk.

function hex(text,    i, v) {
    for (i = 3; i <= length(text); i++)
        v = 16 * v + index("0123456789abcdef", substr(text, i, 1)) - 1
    return v
}

# The variable field's writer calls itself once a group, and a group id has 31 of them at most.
function depth(f, path,    list, n, i, d, deepest) {
    if (!(f in pushed))
        return 8
    if (index(path, " " f " ")) {
        print "frames: functions that call each other:" path f >"/dev/stderr"
        exit 1
    }
    n = split(calls[f], list, " ")
    for (i = 1; i <= n; i++)
        if (list[i] != f) {
            d = depth(list[i], path f " ")
            deepest = d > deepest ? d : deepest
        }
    return (8 + 8 * pushed[f] + taken[f]) * (f in is_repeated ? 31 : 1) + deepest
}

/^[0-9a-f]+ <.*>:$/ {
    pushed[name] = taken[name] = 0
    calls[name] = ""
    next
}

$1 !~ /^[0-9a-f]+:$/ { next }

$2 == "push" { pushed[name]++ }

# A frame of more than a page is taken in parts.
$2 == "sub" && $3 ~ /^\$0x[0-9a-f]+,%rsp$/ {
    sub(/^\$/, "", $3)
    sub(/,.*/, "", $3)
    taken[name] += hex($3)
}

# A jump into another function is a call, too.
($2 == "call" || $2 == "jmp") && $4 ~ /^</ {
    callee = $4
    gsub(/[<>]/, "", callee)
    sub(/\+0x[0-9a-f]+$/, "", callee)
    if (callee == name && $2 == "call")
        is_repeated[name] = 1
    if (callee != name)
        calls[name] = calls[name] " " callee
}

END {
    for (name in pushed)
        if (name !~ /::/)
            print name, depth(name, " ")
}
