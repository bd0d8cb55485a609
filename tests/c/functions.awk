# The library's functions in a program: `name` is the one that a line stands in, and lines of no such function are left out.
# The input: the names of the library's functions, one a line; then `objdump -d --no-show-raw-insn` of the program.

FNR == NR { library[$1] = 1; next }

/^[0-9a-f]+ <.*>:$/ {
    name = $0
    sub(/^[^<]*</, "", name)
    sub(/>:$/, "", name)
    inside = (name in library)
}

!inside { next }
