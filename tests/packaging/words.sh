# The words that make is given: those that it refuses, and what it does with others. A part of tests/package.
# shellcheck shell=bash disable=SC2016,SC2154

# ---- words that would be taken apart ----
mkdir "$work/u" && touch "$work/u/bin"
bad 'uninstall from a folder with a blank' "PREFIX may have no blank" in_tree make uninstall PREFIX="$work/u/bin b"
good 'a file with the first half of its name is still there' [ -e "$work/u/bin" ]
for name in PREFIX BINDIR LIBDIR INCLUDEDIR MANDIR DESTDIR ARCHIVE ARCHIVE_V3 INTAKE DIST CELL CPU MACHINE; do
    bad "a blank in $name" "$name may have no blank" in_tree make -n uninstall "$name=/u b"
done
for sign in '&' '|' ';' '<' '>' '(' ')' '[' ']' '{' '}' '*' '?' '%' '\#' '$$' \\ '"' "'" '`'; do
    bad "$sign in PREFIX" 'PREFIX may have no blank' in_tree make -n uninstall "PREFIX=/u${sign}b"
done
good 'what else is in names' in_tree make -n uninstall PREFIX='/u.b_c-d+e@f:g~h,i=é'
asks 'words that the environment has' '' env CPU=nonsense MACHINE='of some kind' make -n lib

# ---- the compiler, on a machine of another kind ----
mkdir "$work/elsewhere"
printf '#!/bin/sh\necho aarch64\n' >"$work/elsewhere/uname" && chmod +x "$work/elsewhere/uname"
compiler() { # WORD..
    in_tree env PATH="$work/elsewhere:$PATH" make -n -W include/dted.h tool ARCHIVE="$work/given.a" "$@" | sed -n 's/ -std=c99 .*//p'
}
same 'the compiler elsewhere' x86_64-linux-gnu-gcc "$(unset CC && compiler)"
same 'the compiler elsewhere, for that machine' cc "$(unset CC && compiler MACHINE=aarch64)"
same 'the compiler elsewhere that is given' given "$(unset CC && compiler CC=given)"
same 'the compiler elsewhere that the environment has' given "$(CC=given compiler)"

# ---- flags ----
echo '#warning a warning' >"$work/warns.h"
rm -rf "$tree"/target/{shared,tool,examples}
good 'flags of the caller' in_tree make shared tool examples ARCHIVE="$work/given.a" CFLAGS=-O1 CPPFLAGS="-include $work/warns.h" \
    LDFLAGS=-Wl,--build-id=0x1234abcd
same 'the files that CPPFLAGS reach' "$(find tool examples -name '*.c' | wc -l)" "$(grep -cE 'warning: (#warning )?a warning' "$work/log")"
for program in shared/libdted.so tool/dted examples/judge; do
    same "LDFLAGS of $program" 1234abcd "$(readelf -nW "$tree/target/$program" | sed -n 's/.*Build ID: //p')"
done
# an older header, where another version is installed
mkdir "$work/old" && echo '#error an older header' >"$work/old/dted.h"
for compiler in "$cc" $second; do
    good "without a warning, by $compiler" in_tree make -B tool examples ARCHIVE="$work/given.a" CC="$compiler" CPPFLAGS="-I$work/old"
done
