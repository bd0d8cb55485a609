# The first instructions of the library's basic blocks, as "address function". Runs after tests/c/functions.awk.

/^[0-9a-f]+ <.*>:$/ { after = "call"; next }

$1 !~ /^[0-9a-f]+:$/ { next }

{
    address = $1
    sub(/:$/, "", address)
    operation = $2
    operand = $3
    if (operation == "notrack" || operation == "bnd") {
        operation = $3
        operand = $4
    }
    is_filling = operation ~ /^(nop.*|data16|cs)$/ || (operation == "xchg" && operand == "%ax,%ax")
    # What fills up to the next block after a jump is never run.
    if (after == "jump" && is_filling)
        next
    place[address] = name
    if (after != "")
        starts[address] = 1
    after = ""
    if (operation ~ /^j/ && operand ~ /^[0-9a-f]+$/)
        targets[operand] = 1
    if (operation == "jmp" || operation ~ /^ret/ || operation == "ud2")
        after = "jump"
    else if (operation ~ /^(j|call)/)
        after = "call"
}

END {
    # A breakpoint inside an instruction would change it.
    for (address in targets)
        if (address in place)
            starts[address] = 1
    for (address in starts)
        print address, place[address]
}
