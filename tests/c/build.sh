# shellcheck shell=sh disable=SC2154
# For the runs in C: a program of this folder's files and its own, on the static library. Sourced after `root` is set.
c=$root/tests/c
library=$root/target/staticlib/libemdf_host.a

[ -f "$library" ] || make --no-print-directory -C "$root" lib

# program, then sources and options; warnings are errors
build() {
    program=$1
    shift
    mkdir -p "$(dirname "$program")"
    "${CC:-cc}" -std=c99 -O2 -g -Wall -Wextra -pedantic -Werror -I"$root/include" -I"$c" "$@" "$c"/*.c "$library" -o "$program"
}

# program, awk file: what the file makes of the library's machine code in the program
in_machine_code() {
    nm "$library" | awk '$2 == "t" || $2 == "T" { print $3 }' >"$1.functions"
    objdump -d --no-show-raw-insn "$1" | awk -f "$c/functions.awk" -f "$2" "$1.functions" -
}
