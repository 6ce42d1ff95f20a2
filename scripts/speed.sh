#!/usr/bin/env bash
# lm89_run against the second program, both by the kit's clang at -O3, in one process; a soak read from its end beside lm89_run; lm89_tach against the
# second program; then the listing on two captures.
set -euo pipefail
cd "$(dirname "$0")/.."
source scripts/machine.sh
scripts/build.sh
scripts/inlined.sh
for source in speed/speed.c speed/soak.c speed/tach.c second/second.c second/tach.c; do
    "${kit_clang[@]}" -std=c11 -O3 -Iinclude -Isecond -fPIE -c "$source" -o "build/${source//\//-}.o"
done
cc -o build/speed build/speed-speed.c.o build/second-second.c.o "$library"
cc -o build/speed-soak build/speed-soak.c.o "$library"
cc -o build/speed-tach build/speed-tach.c.o build/second-tach.c.o "$library"
build/speed
build/speed-soak
build/speed-tach
build/speed 1000000 build/capture-4
build/speed 16000000 build/capture-64
python3 speed/listing.py build/bin/lm89 build/capture-4 build/capture-64
rm build/capture-4 build/capture-64
