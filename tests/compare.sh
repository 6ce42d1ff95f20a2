#!/usr/bin/env bash
# The second program held to the proved one, call for call: streams of calls with fixed seeds (tests/compare/streams.c, histories.c,
# soaks.c, fans.c and tachs.c there) go through second/replay.c and through the C library (tests/compare/library.c), and what both write
# is compared byte for byte; captures also go through second/listing.c and 'lm89 list'; latches and T_CRIT_A after every record of a
# capture are held to the second account of request e (second/account.c). Prints what was covered and the lines of second/second.c, soak.c,
# fan.c and tach.c there that were not reached; exits non-zero at the first failure. Needs what tests/bench.sh leaves in build/. All its
# files are in build/compare. 'tests/compare.sh COMMAND' takes that command in the place of the library program.
set -euo pipefail
cd "$(dirname "$0")/.."
source scripts/machine.sh

here=build/compare
strict=(-std=c11 -Wall -Wextra -Werror -pedantic)
# One build of second/ for both: what the sanitizers see, and the lines that are reached, which gcov counts by gcc.
watched=(gcc "${strict[@]}" -fsanitize=address,undefined -fno-sanitize-recover=all --coverage)
themes=(device reader pair runs device-ranges reader-ranges writer listed)
writers=(histories soaks fans tachs) # programs that write one stream each
streams=("${themes[@]/#/$here/}" "${writers[@]/#/$here/}")
streams=("${streams[@]/%/.stream}")
parts=(second soak fan tach) # files of second/ that replay.c calls, the lines of which are counted
objects=("${parts[@]/#/$here/}")
objects=("${objects[@]/%/.o}")
lines_least=99
export ASAN_OPTIONS=detect_leaks=0
export PYTHONPYCACHEPREFIX=$PWD/$here/pycache

stop() {
    printf 'compare: %s\n' "$*" >&2
    exit 1
}

make_streams() {
    cc "${strict[@]}" -o "$here/streams" tests/compare/streams.c
    for theme in "${themes[@]}"; do
        "$here/streams" "$theme" >"$here/$theme.stream" || stop "the stream $theme could not be written"
    done
    for writer in "${writers[@]}"; do
        cc "${strict[@]}" -o "$here/$writer" "tests/compare/$writer.c"
        "$here/$writer" >"$here/$writer.stream" || stop "the stream $writer could not be written"
    done
}

make_second() {
    local part
    rm -f "$here"/*.gcda
    for part in "${parts[@]}"; do
        "${watched[@]}" -c -o "$here/$part.o" "second/$part.c"
    done
    "${watched[@]}" -o "$here/second" "${objects[@]}" second/replay.c
    "${watched[@]}" -o "$here/second-listing" "$here/second.o" second/listing.c
    cc "${strict[@]}" -O1 -fsanitize=address,undefined -fno-sanitize-recover=all -o "$here/history" second/history.c second/account.c second/second.c
}

# The lines of a file of second/ that these streams and listings reach.
measure_lines() {
    local file=second/$1.c
    gcov --stdout --object-file "$here/$1.o" "$file" >"$here/$1.c.gcov" 2>"$here/gcov.log" || {
        cat "$here/gcov.log"
        stop "gcov failed, see above"
    }
    awk -F: -v least="$lines_least" -v file="$file" '
        $1 !~ /-/ && $2 + 0 > 0 { lines++ }
        $1 ~ /#####/ { missed++; print file ":" $2 + 0 ": not reached:" substr($0, index($0, $3)) }
        END {
            percent = lines ? 100 * (lines - missed) / lines : 0
            printf "lines: %d of %d lines of %s reached, %.2f percent\n", lines - missed, lines, file, percent
            exit percent < least
        }' "$here/$1.c.gcov" || stop "less than $lines_least percent of the lines of $file reached"
}

mkdir -p "$here"
make_streams &
make_second
wait "$!"
if [ $# -gt 0 ]; then
    other=$1
else
    compile_link "$here/library" tests/compare/library.c || stop "tests/compare/library.c does not compile or link, see above"
    other=$here/library
fi
printf 'second/ and %s:\n' "$other"
python3 tests/compare/compare.py "$here/second" "$other" "${streams[@]}" ||
    stop "second/ and '$other' disagree, see above: documents 01 and 02 say which is wrong"
python3 tests/compare/listings.py "$here/second-listing" 'build/bin/lm89 list' "$here/listed.stream" ||
    stop "the two listings disagree, see above: documents 01 and 02 say which is wrong"
python3 tests/compare/histories.py "$here/history" "$here/runs.stream" "$here/listed.stream" "$here/histories.stream" ||
    stop "latches or T_CRIT_A are not as the account of request e has them, or a row never occurred, see above: document 02 says what is right"
python3 tests/compare/covered.py "${streams[@]}" ||
    stop "see above: add what never occurred to tests/compare/streams.c, soaks.c, fans.c or tachs.c; documents 01 and 02 say what a wrong answer must be"
for part in "${parts[@]}"; do
    measure_lines "$part"
done
