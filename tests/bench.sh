#!/usr/bin/env bash
# What users run: the C examples and the C tests on the library, the listing of every sample held to the file beside it, each of
# them in parts too, and two large captures, of one device and of two, in blocks of several sizes. Exits non-zero at the first
# failure.
set -euo pipefail
cd "$(dirname "$0")/.."
source scripts/machine.sh
flags+=(-Werror)
# The program listing, as 'rt run' leaves it.
listing_program=crates/listing/out/listing

stop() {
    printf 'bench: %s\n' "$*" >&2
    exit 1
}

# NAME SOURCE, and an archive where it is not the library.
program() {
    compile_link "build/$1" "$2" "${3:-}" || stop "$2 does not compile or link, see above"
}

passes() {
    program "$@"
    "build/$1" || stop "$2 failed, see above"
    printf 'c: %s ok\n' "$1"
}

# A header of another major version than the library's is noticed by the example, when it runs.
other_version() {
    local other=build/other-version
    mkdir -p "$other"
    sed 's/^#define LM89_VERSION_MAJOR .*/#define LM89_VERSION_MAJOR 65535/' include/lm89.h >"$other/lm89.h"
    (
        flags=("-I$other" "${flags[@]}")
        program other-version/example examples/bench.c
    )
    ! "$other/example" >"$other/said" 2>&1 || stop "examples/bench.c accepts a header of another major version than the library's"
    grep -q 'lm89.h is of version 65535' "$other/said" || stop "examples/bench.c says '$(<"$other/said")' of a header of another version"
    printf 'c: another version is noticed\n'
}

is_cpp() {
    "${kit_clang[@]}" -x c++ -std=c++11 -fsyntax-only -Wall -Wextra -Werror -pedantic -Iinclude -include lm89_list.h "$1" ||
        stop "$1 or a header is not C++, see above"
}

same() {
    cmp "$1" "$2" || {
        diff "$1" "$2" | head -n 20 || true
        stop "$3"
    }
}

# By the library from C, whole and in parts, and by the program; tests/command.sh lists the samples by the command.
sample() {
    python3 tests/hex.py "samples/$1.hex" >build/capture || stop "samples/$1.hex is not hex text, see above"
    build/list <build/capture >build/listed || stop "build/list failed on samples/$1.hex"
    same "samples/$1.listing" build/listed "lm89_run on samples/$1.hex gives another listing than samples/$1.listing"
    build/feed build/capture || stop "lm89_feed on parts of samples/$1.hex gives something else than lm89_run, see above"
    "$listing_program" <build/capture >build/listed || stop "the program failed on samples/$1.hex"
    same "samples/$1.listing" build/listed "the program gives another listing of samples/$1.hex than samples/$1.listing"
    printf 'sample: %s ok\n' "$1"
}

blocks() {
    python3 tests/blocks.py "$1" "build/large-$2" | build/bin/lm89 list >build/listed || stop "the listing of blocks of $1 bytes failed"
    same "build/large-$2.listing" build/listed "blocks of $1 bytes give another listing than the whole capture of $2 device(s)"
    printf 'blocks of %s, %s device(s) ok\n' "$1" "$2"
}

# The example of reading in blocks counts what the listing shows.
streamed() {
    awk '
        $1 != "end" { first = index("0123456789ABCDEF", substr($2, 2)) - 1; alert += first % 2; tcrit += int(first / 2) % 2; held += substr($2, 1, 1) }
        $1 == "end" { printf "%d records, ALERT pulled after %d, T_CRIT_A after %d, readings held at %d, code %d\n", $2, alert, tcrit, held, $3 }
    ' "build/large-$1.listing" >build/counted
    build/stream <"build/large-$1" >build/listed || stop "examples/stream.c failed on the large capture of $1 device(s)"
    same build/counted build/listed "examples/stream.c counts otherwise than the listing"
    printf 'c: stream, %s device(s) ok\n' "$1"
}

# A large capture of so many devices: whole, in parts and in blocks.
large() {
    local size
    python3 tests/large.py "$1" >"build/large-$1"
    build/list <"build/large-$1" >"build/large-$1.listing"
    [ "$(tail -n 1 "build/large-$1.listing")" = "end 20000 0" ] ||
        stop "the large capture of $1 device(s) ends with '$(tail -n 1 "build/large-$1.listing")'"
    build/feed "build/large-$1" || stop "lm89_feed on parts of the large capture of $1 device(s) gives something else than lm89_run, see above"
    streamed "$1"
    for size in 1 3 4 7 65536; do
        blocks "$size" "$1"
    done
}

# An example prints what stands on standard input; it stays in build/printed-NAME.
prints() {
    cat >build/counted
    program "$1" "examples/$1.c"
    "build/$1" >"build/printed-$1" || stop "examples/$1.c failed, see above"
    same build/counted "build/printed-$1" "examples/$1.c prints something else"
    printf 'example: %s ok\n' "$1"
}

# An example, with its numbers changed by an edit, ends with a message.
refused() {
    local said
    sed "$2" "examples/$1.c" >"build/refused-$1.c"
    program "refused-$1" "build/refused-$1.c"
    ! said=$("build/refused-$1" 2>&1 >build/listed) || stop "examples/$1.c is not refused after $2"
    [ "$said" = "$3" ] || stop "examples/$1.c says '$said' after $2, expected '$3'"
    printf 'example: %s refused ok\n' "$1"
}

# What the program listing says where input or output fails; it has no exit status.
program_says() {
    local said
    said=$("$listing_program" 2>&1 >"$1" <"$2")
    [[ $said == $3 ]] || stop "the program says '$said', expected '$3'"
    printf 'program: %s ok\n' "$3"
}

scripts/build.sh
undefined=$(nm -u "$library") || stop "nm cannot read $library: install binutils"
! grep ' U ' <<<"$undefined" || stop "$library needs another library for the symbols above"
(cd crates/listing && rt run <stdin) >build/listed 2>build/listing.log || {
    cat build/listing.log
    stop "the program listing is not proved, or failed, see above"
}
same crates/listing/stdout build/listed "the program gives another listing than crates/listing/stdout"
scripts/inlined.sh || stop "the library is not inlined as it must be, see above"
passes example examples/bench.c
other_version
is_cpp examples/bench.c
is_cpp examples/stream.c
is_cpp examples/pair.c
is_cpp examples/two.c
is_cpp examples/soak.c
is_cpp examples/fan.c
is_cpp examples/tach.c
printf 'c++: headers ok\n'
passes layout tests/c/layout.c
passes run tests/c/run.c
passes held tests/c/held.c
passes feed tests/c/feed.c
passes write tests/c/write.c
passes both tests/c/both.c
passes soak tests/c/soak.c
passes fan tests/c/fan.c
passes tach tests/c/tach.c
passes calls tests/c/calls.c "$listing_library"
program list tests/c/list.c
program stream examples/stream.c
# Pairs of reads with a conversion between: 31 E0 is 399 eighths, 32 00 is 400.
prints pair <<'END'
first pair: 31 E0, 399 eighths, 49.875 degrees
second pair: 32 00, 400 eighths, 50.000 degrees
third pair: FF E0, -1 eighths, -0.125 degrees
END
# Two sensors that both alert: 4C answers before 4D, and each is masked then.
prints two <<'END'
ALERT is pulled
4C answers 99, its status is 40; ALERT is pulled
4D answers 9B, its status is 10; ALERT is let go
asked once more: nobody answers
both unmasked, after 9 records: ALERT is let go
END
# A day's soak: warm readings decide nothing; three hot ones in a row set the latch, two behind a cold one do not.
prints soak <<'END'
warm all day: code 0, T_CRIT_A is let go, 1382400 of 1382400 records read
three hot at the end: code 0, T_CRIT_A is pulled, 3 of 1382400 records read
cold, then two hot: code 0, T_CRIT_A is let go, 3 of 1382400 records read
END
# The data sheet's table, of 40 all told: 9 is 22.50 percent. Entry 4, of 65 degrees, holds at 63 and not at 60; then 63 does not reach it.
prints fan <<'END'
degrees  step  PWM value  duty in percent
     -5     0          0             0.00
     34     0          0             0.00
     35     1          9            22.50
     48     2         10            25.00
     66     4         16            40.00
     63     4         16            40.00
     60     3         13            32.50
     63     3         13            32.50
     88     6         26            65.00
    106     8         40           100.00
    101     8         40           100.00
    100     7         33            82.50
     72     5         21            52.50
     40     1          9            22.50
     31     1          9            22.50
     30     0          0             0.00
preset of about 75 percent: PWM value 30, duty 75.00 percent
END
refused fan 's/{75, 21}/{57, 21}/' \
    'fan: lm89_fan_step gives code 11: entry 5 has 57 degrees, below the 65 of entry 4: put the entries in order of temperature'
refused fan 's/{105, 40}/{105, 64}/' \
    'fan: lm89_fan_step gives code 4: out of range: make temperatures 0 to 127, PWM values 0 to 63, hysteresis and frequency 0 to 31'
# A fan that runs down: 62,700 to 164 is 3,000 ticks, going round; 900 is not under a floor of 900.
prints tach <<'END'
earlier  later  period    speed
  60000  62700    2700     2000
  62700    164    3000     1800
    164   6164    6000      900
   6164  60164   54000      100
  60164  60163   65535       82
slowest 82, fastest 2000, 2 of 5 under 900
END
refused tach 's/{60000, .*}/{60000}/' 'tach: code 12: stamps needed are two or more, and there are 1: stamp more edges'
refused tach 's/6164, 60164/6164, 6164/' \
    'tach: code 13: stamps 4 and 5 are both 6164: an edge was stamped twice, or a whole round of the counter was missed'
for hex in samples/*.hex; do
    sample "$(basename "$hex" .hex)"
done
large 1
large 2
program_says /dev/full build/large-1 'listing: standard output cannot be written: *'
program_says /dev/full /dev/null 'listing: standard output cannot be written: *'
program_says /dev/null . 'listing: standard input cannot be read: *'
