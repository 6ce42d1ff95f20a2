#!/usr/bin/env bash
# build/lib gets liblm89.a, liblm89_list.a and their headers; build/bin gets the command lm89. Archives are made anew only where the kit or a
# crate has changed since. build/built is as old as the start of the last build that succeeded, build/kit the identity of the kit that made it.
set -euo pipefail
cd "$(dirname "$0")/.."
source scripts/machine.sh

first_build_takes='about a quarter of an hour'
joined=(bench_c bench_step_c bench_feed_c bench_write_c bench_version_c soak_c fan_c tach_c)
listing=bench_list
crates=("${joined[@]}" "$listing")
archives=build/archives
at_once=2

say() {
    printf 'build: %s\n' "$*"
}

stop() {
    printf 'build: %s\n' "$*" >&2
    exit 1
}

# What every archive comes from: the kit, and each crate's program, definitions and proofs.
origin_now() {
    {
        rt version && cat crates.txt &&
            find crates \( -name must-fail -o -name out \) -prune -o -type f -print0 | LC_ALL=C sort -z | xargs -0 sha256sum
    } | sha256sum | cut -d ' ' -f 1
}

is_current() {
    [ -f "$archives/lib$1.a" ] && [ -f "$archives/$1.origin" ] && [ "$(cat "$archives/$1.origin")" = "$origin" ]
}

make_archive() {
    rm -f "$archives/$1.origin" "crates/$1/out/lib$1.a"
    (cd "crates/$1" && rt lib) >"$archives/$1.log" 2>&1 || {
        cat "$archives/$1.log"
        stop "'rt lib' failed in crates/$1, see above"
    }
    mv "crates/$1/out/lib$1.a" "$archives/"
    printf '%s\n' "$origin" >"$archives/$1.origin"
    say "  $1 is proved and compiled"
}

# The first makes the libraries that the others stand on too.
make_archives() {
    local stale=() crate
    for crate in "${crates[@]}"; do
        is_current "$crate" || stale+=("$crate")
    done
    [ ${#stale[@]} -gt 0 ] || return 0
    say "proves what has changed, and compiles it; from nothing this takes $first_build_takes"
    make_archive "${stale[0]}"
    export -f make_archive say stop
    export archives origin
    printf '%s\n' "${stale[@]:1}" | xargs -r -P "$at_once" -I '{}' bash -euo pipefail -c 'make_archive "{}"' || stop "archives are missing, see above"
}

# ARCHIVE PARTS..., archives or objects.
join() {
    rm -f build/joined.a
    "$toolchain/bin/llvm-ar" qcL build/joined.a "${@:2}" || stop "the archives cannot be joined, see above"
    mv build/joined.a "$1"
}

make_libraries() {
    local parts=("${joined[@]/#/$archives/lib}")
    cc "${flags[@]}" -fPIC -c -o "$archives/list.o" c/list.c || stop "c/list.c does not compile, see above"
    join "$library" "${parts[@]/%/.a}"
    join "$listing_library" "$archives/lib$listing.a" "$archives/list.o"
    cp include/lm89.h include/lm89_list.h build/lib/
}

make_command() {
    compile_link build/lm89 command/lm89.c "$listing_library" || stop "command/lm89.c does not compile or link, see above"
    rm -f build/bin/*
    mv build/lm89 build/bin/lm89
}

mkdir -p build/lib build/bin "$archives"
touch build/started
origin=$(origin_now) || stop "the kit's version or the crates cannot be read, see above"
make_archives
make_libraries
make_command
cp "$kit/KIT-ID" build/kit
mv build/started build/built
say "$library, $listing_library and build/bin/lm89 are up to date"
