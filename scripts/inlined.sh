#!/usr/bin/env bash
# Beside the functions that C calls, build/lib/liblm89.a has none of 512 bytes or more: each large function has one call site and
# is inlined there, else the reader is up to three times slower. The reader's range test is no exception in lm89_run; among
# the calls on parts it stands once for two of them, which ask it once a call and not once a record.
set -euo pipefail
cd "$(dirname "$0")/.."
source scripts/machine.sh
once_a_call='bench_feed_c.o capture::ranges::in_range'
symbols=$(nm -A -S "$library") || {
    printf 'inlined: nm cannot read %s: install binutils\n' "$library" >&2
    exit 1
}
# Member, address, size, sort, name.
symbols=$(sed -E 's/^[^:]*:([^:]*): */\1 /' <<<"$symbols")
large=$(awk '$4 == "t" { sub(/^0+/, "", $3); if (length($3) > 3 || (length($3) == 3 && $3 >= "200")) print $1, $5 }' <<<"$symbols" |
    grep -vxF "$once_a_call" || true)
[ -z "$large" ] || {
    printf 'inlined: not inlined, since called from two places: %s\n' "$large" >&2
    exit 1
}
grep -q ' T lm89_run$' <<<"$symbols" || {
    printf 'inlined: %s has no lm89_run\n' "$library" >&2
    exit 1
}
printf 'inlined: no large function beside those that C calls\n'
