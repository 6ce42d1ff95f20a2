#!/usr/bin/env bash
# The command lm89 and 'make', as users meet them: listings, exit statuses, messages, installation. Needs what tests/bench.sh
# leaves in build/. Names each check that passes; the first that fails says what was expected, and the exit status is 1.
set -euo pipefail
cd "$(dirname "$0")/.."
source scripts/machine.sh
flags+=(-Werror)
unset MAKEFLAGS MAKELEVEL MFLAGS PREFIX DESTDIR CAPTURE
export LC_ALL=C

lm89=build/bin/lm89
here=build/command
usage=$'\n''usage: lm89 list \[FILE]'$'\n''       lm89 --help | --version'

stop() {
    printf 'command: %s\n' "$*" >&2
    exit 1
}

# NAME STATUS PATTERN COMMAND...: the command ends so, and what it says on standard error fits. What it writes is in $here/out,
# for the checks behind this one, which name it too.
ends() {
    local status=$2 pattern=$3 got=0 said
    name=$1
    shift 3
    "$@" >"$here/out" 2>"$here/said" || got=$?
    said=$(<"$here/said")
    [ "$got" = "$status" ] || stop "$name: the exit status is $got, expected $status; it says '$said'"
    # shellcheck disable=SC2053
    [[ $said == $pattern ]] || stop "$name: it says '$said', expected '$pattern'"
    printf 'command: %s\n' "$name"
}

# The last command wrote what this file has.
wrote() {
    cmp "$1" "$here/out" || {
        diff "$1" "$here/out" | head -n 20 || true
        stop "$name: it wrote something else than $1 has, see above"
    }
}

wrote_nothing() {
    [ ! -s "$here/out" ] || stop "$name: it wrote '$(<"$here/out")', expected nothing"
}

from() {
    "${@:2}" <"$1"
}

in_folder() {
    (cd "$1" && "${@:2}")
}

to_full_disk() {
    "$@" >/dev/full
}

# Kilobytes of stack.
with_stack() {
    (ulimit -s "$1" && "${@:2}")
}

input_closed() {
    "$@" <&-
}

output_closed() {
    "$@" >&-
}

error_closed() {
    "$@" 2>&-
}

# Standard output is a pipe that nobody reads, and SIGPIPE kills whom it reaches.
to_closed_pipe() {
    local plainly='import os, signal, sys; signal.signal(signal.SIGPIPE, signal.SIG_DFL); os.execv(sys.argv[1], sys.argv[1:])'
    rm -f "$here/pipe"
    mkfifo "$here/pipe"
    # shellcheck disable=SC2094
    python3 -c "$plainly" "$@" 3<>"$here/pipe" >"$here/pipe" 3>&-
}

# The status that a listing's last line asks for.
status_of() {
    case $(tail -n 1 "$1") in
    end\ *\ 0) printf 0 ;;
    *) printf 1 ;;
    esac
}

test_samples() {
    local hex sample status said
    for hex in samples/*.hex; do
        sample=$(basename "$hex" .hex)
        python3 tests/hex.py "$hex" >"$here/$sample"
        status=$(status_of "samples/$sample.listing")
        said=
        [ "$status" = 0 ] || said='lm89: *'
        ends "$sample by name" "$status" "$said" "$lm89" list "$here/$sample"
        wrote "samples/$sample.listing"
        ends "$sample by standard input" "$status" "$said" from "$here/$sample" "$lm89" list
        wrote "samples/$sample.listing"
    done
}

# The sample is not accepted, and the message names this place and reason.
refused() {
    ends "message for $1" 1 "lm89: $here/$1: $2; *" "$lm89" list "$here/$1"
}

test_messages() {
    refused 21-refused-count 'byte 1 is refused: the device count is not 1 or 2 (code 1)'
    refused 22-refused-variant 'byte 2 is refused: the variant is not 1, 2 or 3 (code 2)'
    refused 23-refused-kind 'byte 26 is refused, in record 5 (bytes 23 to 26): its kind is not 1 to 7 (code 3)'
    refused 24-refused-operand 'byte 22 is refused, in record 4 (bytes 19 to 22): an operand is outside the table of kinds (code 4)'
    refused 25-refused-past-end 'byte 23 is refused: it comes after the last counted record (code 5)'
    refused 26-cut-short 'ends after 24 bytes, before its counted end (code 6)'
    refused 37-refused-first-variant 'byte 2 is refused: the variant is not 1, 2 or 3 (code 2)'
    refused 38b-refused-second-variant 'byte 3 is refused: the variant is not 1, 2 or 3 (code 2)'
    refused 39b-refused-address 'byte 3 is refused: both devices have one address (code 9)'
    refused 40-refused-second-kind 'byte 14 is refused, in record 2 (bytes 11 to 14): its kind is not 1 to 7 (code 3)'
    refused 40c-refused-kind-of-two 'byte 19 is refused, in record 3 (bytes 16 to 19): its kind is not 1 to 9 (code 3)'
    refused 41-refused-second-operand 'byte 15 is refused, in record 2 (bytes 12 to 15): an operand is outside the table of kinds (code 4)'
    refused 47-two-header-6 'ends after 6 bytes, before its counted end (code 6)'
    refused 49-two-past-end 'byte 12 is refused: it comes after the last counted record (code 5)'
    ends 'message for standard input' 1 'lm89: standard input: byte 2 is refused: *' from "$here/22-refused-variant" "$lm89" list
    printf '\1' >"$here/one-byte"
    refused one-byte 'ends after 1 byte, before its counted end (code 6)'
    ends 'message for no byte' 1 'lm89: standard input: ends after 0 bytes, *' from /dev/null "$lm89" list
}

test_names() {
    local listing=samples/01-document.listing
    ends 'a dash' 0 '' from "$here/01-document" "$lm89" list -
    wrote $listing
    ends 'a dash behind --' 0 '' from "$here/01-document" "$lm89" list -- -
    wrote $listing
    ends 'a name behind --' 0 '' "$lm89" list -- "$here/01-document"
    wrote $listing
    cp "$here/01-document" "$here/--help"
    ends 'a name like an option' 0 '' in_folder "$here" "$PWD/$lm89" list -- --help
    wrote $listing
    ends 'no such file' 2 "lm89: $here/nowhere: cannot be opened: No such file or directory; give *" "$lm89" list "$here/nowhere"
    wrote_nothing
    ends 'a folder' 2 "lm89: $here: cannot be read: Is a directory; *" "$lm89" list "$here"
    wrote_nothing
}

# As much stack as include/lm89_list.h promises to be enough.
test_small_stack() {
    ends 'small stack' 0 '' with_stack 512 "$lm89" list "$here/01-document"
    wrote samples/01-document.listing
}

test_full_disk() {
    local full='lm89: standard output cannot be written: No space left on device'
    ends 'full disk, lines' 2 "$full; the listing is not complete: *" to_full_disk "$lm89" list "$here/01-document"
    ends 'full disk, last line alone' 2 "$full; the listing is not complete: *" from /dev/null to_full_disk "$lm89" list
    ends 'full disk, help' 2 "$full; send it elsewhere" to_full_disk "$lm89" --help
    ends 'full disk, version' 2 "$full; send it elsewhere" to_full_disk "$lm89" --version
}

# The command, with an output that cannot be closed.
test_failing_close() {
    local failing='lm89: standard output cannot be written: Input/output error'
    (
        flags+=(-D_POSIX_C_SOURCE=200809L -include tests/c/failing_close.h)
        compile_link "$here/failing" command/lm89.c "$listing_library"
    ) || stop "command/lm89.c does not compile or link with tests/c/failing_close.h, see above"
    ends 'output not closed, list' 2 "$failing; the listing is not complete: *" "$here/failing" list "$here/01-document"
    wrote samples/01-document.listing
    ends 'output not closed, version' 2 "$failing; send it elsewhere" "$here/failing" --version
}

test_closed() {
    local closed='cannot be written: Bad file descriptor' broken='cannot be written: Broken pipe'
    ends 'closed output, by name' 2 "lm89: standard output $closed; *" output_closed "$lm89" list "$here/01-document"
    ends 'closed output, by standard input' 2 "lm89: standard output $closed; *" from "$here/01-document" output_closed "$lm89" list
    ends 'closed output, help' 2 "lm89: standard output $closed; send it elsewhere" output_closed "$lm89" --help
    ends 'closed pipe' 2 "lm89: standard output $broken; *" to_closed_pipe "$lm89" list "$here/01-document"
    ends 'closed pipe, version' 2 "lm89: standard output $broken; send it elsewhere" to_closed_pipe "$lm89" --version
    ends 'closed input' 2 'lm89: standard input: cannot be read: Bad file descriptor; *' input_closed "$lm89" list
    wrote_nothing
    ends 'closed input, by name' 0 '' input_closed "$lm89" list "$here/01-document"
    wrote samples/01-document.listing
    ends 'closed error, accepted' 0 '' error_closed "$lm89" list "$here/01-document"
    wrote samples/01-document.listing
    cp "$here/23-refused-kind" "$here/kept"
    ends 'closed error, refused' 1 '' error_closed "$lm89" list "$here/kept"
    cmp "$here/23-refused-kind" "$here/kept" || stop "the capture was written to"
    ends 'closed input and output' 2 "lm89: standard output $closed; *" input_closed output_closed "$lm89" list "$here/01-document"
}

# NAME MESSAGE WORDS...: bad usage.
misused() {
    ends "usage, $1" 2 "lm89: $2$usage" from /dev/null "$lm89" "${@:3}"
    wrote_nothing
}

test_usage() {
    misused 'no word' 'no command is given'
    misused 'another word' "'listing' is no command" listing
    misused 'another option' "'--lines' is no command" --lines
    misused 'a word behind --version' "'now' stands behind --version, which takes no word" --version now
    misused 'a word behind --help' "'list' stands behind --help, which takes no word" --help list
    misused 'an empty word' "'' is no command" ''
    misused 'option of list' "list: '--lines' is no option" list --lines
    misused 'option behind a file' "list: '-n' is no option" list "$here/01-document" -n
    misused 'two files' "list: 'b' is a second FILE: give one at most" list a b
    misused 'two files behind --' "list: '--help' is a second FILE: give one at most" list -- a --help
}

test_help() {
    local asked
    ends 'help' 0 '' "$lm89" --help
    cp "$here/out" "$here/help"
    for part in 'usage: lm89 list \[FILE\]' 'lm89 --help | --version' 'Exit status: 0 .* 1 ' 'count bytes and records from 1'; do
        grep -q "$part" "$here/help" || stop "help has no line like '$part'"
    done
    for asked in -h 'list --help' 'list -h' 'list a --help'; do
        # shellcheck disable=SC2086
        ends "help by $asked" 0 '' "$lm89" $asked
        wrote "$here/help"
    done
}

header_number() {
    awk -v name="LM89_VERSION_$1" '$2 == name { print $3 }' include/lm89.h
}

test_version() {
    version=$(header_number MAJOR).$(header_number MINOR)
    [[ $version =~ ^[0-9]+\.[0-9]+$ ]] || stop "include/lm89.h has the version '$version', expected MAJOR.MINOR"
    printf 'lm89 %s\n' "$version" >"$here/version"
    ends 'version' 0 '' "$lm89" --version
    wrote "$here/version"
}

# NAME MESSAGE CAPTURE: 'make list' fails with one message, and make's own line behind it.
make_refuses() {
    ends "make list, $1" 2 "$2"$'\n''make: \*\*\* *' make -s list "CAPTURE=$3"
    ! grep -q Traceback "$here/said" "$here/out" || stop "make list shows a traceback"
}

test_make_list() {
    ends 'make list' 0 '' make -s list
    wrote samples/01-document.listing
    ends 'make list, hex text' 0 '' make -s list CAPTURE=samples/07-offsets.hex
    wrote samples/07-offsets.listing
    ends 'make list, raw bytes' 0 '' make -s list "CAPTURE=$here/07-offsets"
    wrote samples/07-offsets.listing
    make_refuses 'refused hex text' 'lm89: build/23-refused-kind.bytes: byte 26 is refused, *' samples/23-refused-kind.hex
    wrote samples/23-refused-kind.listing
    make_refuses 'refused raw bytes' "lm89: $here/23-refused-kind: byte 26 is refused, *" "$here/23-refused-kind"
    wrote samples/23-refused-kind.listing
    make_refuses 'no such file' 'lm89: nowhere: cannot be opened: No such file or directory; give *' nowhere
    make_refuses 'no such hex text' 'hex: nowhere.hex: cannot be read: No such file or directory: *' nowhere.hex
    make_refuses 'a folder' 'lm89: samples: cannot be read: Is a directory; *' samples
    mkdir -p "$here/folder.hex"
    make_refuses 'a folder like hex text' "hex: $here/folder.hex: cannot be read: Is a directory: *" "$here/folder.hex"
    printf '01 01 # header\n00 00 00 0G\n' >"$here/bad.hex"
    make_refuses 'bad hex text' "hex: $here/bad.hex: line 2: '0G' is not hex: *" "$here/bad.hex"
    wrote_nothing
    printf '01 01\n00 00 00 1\n' >"$here/odd.hex"
    make_refuses 'half a byte' "hex: $here/odd.hex: line 2: '1' is not hex: *" "$here/odd.hex"
    printf '\1\1\0\0\0\0\377' >"$here/raw.hex"
    make_refuses 'raw bytes named as hex text' "hex: $here/raw.hex: line 1: '*' is not hex: *" "$here/raw.hex"
}

# With an rt that only leaves a mark.
without_rt() {
    PATH=$PWD/$here/bin:$PATH "$@"
}

test_make_again() {
    local source
    rm -f "$here/rt-was-run"
    mkdir -p "$here/bin"
    printf '#!/bin/sh\ntouch "%s"\nexit 1\n' "$PWD/$here/rt-was-run" >"$here/bin/rt"
    chmod +x "$here/bin/rt"
    ends 'make, nothing changed' 0 '' without_rt make
    grep -q 'Nothing to be done' "$here/out" || stop "make says '$(<"$here/out")', expected 'Nothing to be done'"
    [ ! -e "$here/rt-was-run" ] || stop 'make runs rt where nothing has changed'
    for source in crates.txt crates/bench/src/lib.rt crates/bench/specs/Bench.antt crates/laws/proofs include/lm89.h include/lm89_list.h \
        c/list.c command/lm89.c scripts/build.sh; do
        ends "make, $source changed" 1 '' make -q -W "$source"
    done
    cp build/kit "$here/kit"
    printf 'another kit\n' >build/kit
    ends 'make, another kit' 1 '' make -q
    cp "$here/kit" build/kit
    mv build/lib/liblm89_list.a "$here/away"
    ends 'make, a library missing' 1 '' make -q
    mv "$here/away" build/lib/liblm89_list.a
    ends 'make, all there' 0 '' make -q
}

test_make_help() {
    local target
    ends 'make help' 0 '' make help
    for target in all list lib test misreadings speed install uninstall clean help; do
        [ "$(grep -c "^make $target  *[^ ]" "$here/out")" = 1 ] || stop "make help has not one line on $target"
    done
}

installed_files() {
    printf '%s\n' bin/lm89 include/lm89.h include/lm89_list.h lib/liblm89.a lib/liblm89_list.a lib/pkgconfig/lm89.pc share/man/man1/lm89.1
}

# The folder has exactly the files of standard input.
has_files() {
    (cd "$1" && find . -type f | sed 's,^\./,,' | sort) >"$here/found" || stop "$name: there is no folder $1"
    diff - "$here/found" || stop "$name: $1 has other files than expected: < expected, > found"
}

# The installed lm89.pc has this line.
says() {
    grep -qxF "$2" "$1/lib/pkgconfig/lm89.pc" || stop "$name: $1/lib/pkgconfig/lm89.pc has no line '$2'"
}

# PREFIX MESSAGE: neither installs nor removes anything.
no_prefix() {
    local action
    for action in install uninstall; do
        ends "make $action, PREFIX=$1" 2 "install.sh: $2"$'\n''make: \*\*\* *' without_rt make -s "$action" PREFIX="$1"
    done
    [ -f include/lm89.h ] || stop "make uninstall PREFIX=$1 removed include/lm89.h"
}

test_prefix() {
    no_prefix '' "PREFIX is '': give a whole path, *"
    no_prefix . "PREFIX is '.': give a whole path, *"
    no_prefix "$PWD" "$PWD is this repository: *"
}

# By pkg-config, where it is there: a prefix with a blank in its name.
test_pkg_config() {
    local prefix="$PWD/$here/a prefix" words=
    command -v pkg-config >/dev/null || return 0
    ends 'make install, a blank in PREFIX' 0 '' without_rt make -s install PREFIX="$prefix"
    words=$(PKG_CONFIG_PATH=$prefix/lib/pkgconfig pkg-config --cflags --libs lm89) || stop 'pkg-config does not read lm89.pc'
    eval "words=($words)"
    [ "${words[0]}" = "-I$prefix/include" ] && [ "${words[1]}" = "-L$prefix/lib" ] || stop "pkg-config says '${words[*]}'"
    printf 'command: pkg-config\n'
}

test_install() {
    local prefix=$PWD/$here/prefix dest=$here/dest
    rm -rf "$prefix" "$dest"
    mkdir -p "$prefix/lib"
    touch "$prefix/lib/other"
    ends 'make install' 0 '' without_rt make -s install PREFIX="$prefix"
    { installed_files; echo lib/other; } | sort | has_files "$prefix"
    cmp include/lm89.h "$prefix/include/lm89.h" || stop 'another header is installed'
    cmp build/lib/liblm89.a "$prefix/lib/liblm89.a" || stop 'another library is installed'
    says "$prefix" "prefix=$prefix"
    says "$prefix" "Version: $version"
    ends 'installed command' 0 '' "$prefix/bin/lm89" list "$here/01-document"
    wrote samples/01-document.listing
    ends 'make uninstall' 0 '' without_rt make -s uninstall PREFIX="$prefix"
    echo lib/other | has_files "$prefix"
    ends 'make install, DESTDIR' 0 '' without_rt make -s install DESTDIR="$dest" PREFIX=/opt/lm89
    installed_files | has_files "$dest/opt/lm89"
    says "$dest/opt/lm89" prefix=/opt/lm89
    ends 'make uninstall, DESTDIR' 0 '' without_rt make -s uninstall DESTDIR="$dest" PREFIX=/opt/lm89
    has_files "$dest" </dev/null
}

command -v make >/dev/null || stop "make is not on the PATH: install GNU make"
[ -x "$lm89" ] || stop "there is no $lm89: run tests/bench.sh first"
rm -rf "$here"
mkdir -p "$here"
test_samples
test_messages
test_names
test_small_stack
test_full_disk
test_failing_close
test_closed
test_usage
test_help
test_version
test_make_list
test_make_again
test_make_help
test_install
test_prefix
test_pkg_config
