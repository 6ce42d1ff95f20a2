# To be sourced: the kit's place, and how a C program is made on this machine. The kit makes archives for x86-64 and runs there.
command -v rt >/dev/null || {
    printf 'rt is not on the PATH: install the Rattle kit first\n' >&2
    exit 1
}
[ "$(uname -m)" = x86_64 ] || {
    printf 'this machine is %s: the Rattle kit is for x86-64\n' "$(uname -m)" >&2
    exit 1
}
kit=$(dirname "$(dirname "$(realpath "$(command -v rt)")")")
toolchain=$kit/toolchain
library=build/lib/liblm89.a
listing_library=build/lib/liblm89_list.a
flags=(-std=c11 -O2 -Wall -Wextra -pedantic -Iinclude)

# The kit's clang, with the headers of the machine's cc.
kit_clang=("$toolchain/bin/clang" -isystem "$(cc -print-file-name=include)" -isystem /usr/include -isystem /usr/include/x86_64-linux-gnu)

# Program OUT of SOURCE and ARCHIVE, else the library.
compile_link() {
    cc "${flags[@]}" -o "$1" "$2" "${3:-$library}"
}
