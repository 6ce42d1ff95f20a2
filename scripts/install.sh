#!/usr/bin/env bash
# 'install.sh install' puts what 'make' built under $DESTDIR$PREFIX; 'install.sh uninstall' removes the same files.
set -euo pipefail
cd "$(dirname "$0")/.."

PREFIX=${PREFIX-/usr/local}
root=${DESTDIR-}$PREFIX

stop() {
    printf 'install.sh: %s\n' "$*" >&2
    exit 2
}

[[ $PREFIX == /* ]] || stop "PREFIX is '$PREFIX': give a whole path, as PREFIX=/usr/local"
[ ! "$root/include/lm89.h" -ef include/lm89.h ] || stop "$root is this repository: give another PREFIX"

# Mode, file and place under the prefix.
files=(
    '644 include/lm89.h include/lm89.h'
    '644 include/lm89_list.h include/lm89_list.h'
    '644 build/lib/liblm89.a lib/liblm89.a'
    '644 build/lib/liblm89_list.a lib/liblm89_list.a'
    '644 build/lm89.pc lib/pkgconfig/lm89.pc'
    '755 build/bin/lm89 bin/lm89'
    '644 command/lm89.1 share/man/man1/lm89.1'
)

# The header's number of this name.
version_part() {
    sed -n "s/^#define LM89_VERSION_$1 \([0-9]*\)$/\1/p" include/lm89.h
}

write_pkg_config() {
    local text
    text=$(<lm89.pc.in)
    text=${text//@PREFIX@/"$PREFIX"}
    printf '%s\n' "${text//@VERSION@/$(version_part MAJOR).$(version_part MINOR)}" >build/lm89.pc
}

put() {
    install -D -m "$1" "$2" "$root/$3" || stop "$root cannot be written: become root, or give another PREFIX"
    printf 'installed: %s\n' "$root/$3"
}

remove() {
    [ -e "$root/$3" ] || return 0
    rm "$root/$3"
    printf 'removed: %s\n' "$root/$3"
}

case ${1-} in
install)
    write_pkg_config
    action=put
    ;;
uninstall) action=remove ;;
*)
    stop "give 'install' or 'uninstall'"
    ;;
esac
for line in "${files[@]}"; do
    read -r mode file place <<<"$line"
    "$action" "$mode" "$file" "$place"
done
