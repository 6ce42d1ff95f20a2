#!/usr/bin/env bash
# The second program: its own tests, under the sanitizers too, and its listings of every sample and of the large captures held
# to the model's. Needs what tests/bench.sh leaves in build/. Exits non-zero at the first failure.
set -euo pipefail
cd "$(dirname "$0")/.."

flags=(-std=c11 -O2 -Wall -Wextra -Werror -pedantic)

stop() {
    printf 'second: %s\n' "$*" >&2
    exit 1
}

cc "${flags[@]}" -fsanitize=address,undefined -fno-sanitize-recover=all -o build/second-selftest \
    second/second.c second/soak.c second/account.c second/selftest.c
ASAN_OPTIONS=detect_leaks=0 build/second-selftest || stop "second/selftest.c failed, see above"
cc "${flags[@]}" -fsanitize=address,undefined -fno-sanitize-recover=all -o build/second-fan-selftest second/fan.c second/fan_selftest.c
ASAN_OPTIONS=detect_leaks=0 build/second-fan-selftest || stop "second/fan_selftest.c failed, see above"
cc "${flags[@]}" -fsanitize=address,undefined -fno-sanitize-recover=all -o build/second-tach-selftest second/tach.c second/tach_selftest.c
ASAN_OPTIONS=detect_leaks=0 build/second-tach-selftest || stop "second/tach_selftest.c failed, see above"
cc "${flags[@]}" -o build/second-listing second/second.c second/listing.c
for hex in samples/*.hex; do
    python3 tests/hex.py <"$hex" | build/second-listing >build/listed
    cmp "${hex%.hex}.listing" build/listed || stop "$hex has another listing in the second program"
done
for devices in 1 2; do
    build/second-listing <"build/large-$devices" >build/listed
    cmp "build/large-$devices.listing" build/listed || stop "the large capture of $devices device(s) has another listing in the second program"
done
printf 'second: samples and the large captures agree\n'
