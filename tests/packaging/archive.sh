# The names of the archive and of the shared library. A part of tests/package.
# shellcheck shell=bash disable=SC2016,SC2154

# The global names that a file defines, or with other words of nm, those that it needs.
names() { # FILE WORD..
    "$nm" -P "${@:2}" "$1" | awk 'NF > 1 {sub(/@.*/, "", $1); print $1}' | sort
}

[ "$archive" != "$own" ] || good 'the archive' make lib
# a prototype ends its line; what is inline goes on
calls=$(sed -nE 's/^[A-Za-z][A-Za-z0-9_ *]*[ *](dted_[a-z0-9_]+)\(.*\);$/\1/p' include/dted.h | sort)
good 'the header has calls' [ -n "$calls" ]
same 'the archive has the calls of the header, and no other name' "$calls" "$(names "$archive" -g --defined-only)"
same 'the archive needs nothing more' '' "$(names "$archive" -u | grep -vxE 'mem(cpy|move|set|cmp)')"

good 'the shared library and the tool' make shared tool
shared=target/shared/libdted.so.$version
same 'the shared library has the calls of the header, and no other name' "$calls" "$(names "$shared" -D --defined-only)"
same 'the shared library needs memset alone' memset "$(names "$shared" -D -u)"
same 'its name in the README' "$shared" "$(grep -oE 'target/shared/libdted\.so[0-9.]*' README.md)"
same 'its soname' "libdted.so.$soversion" "$(readelf -dW "$shared" | sed -n 's/.*(SONAME).*\[\(.*\)\]/\1/p')"
# no links to names: rt ci has none in a checkout
for name in libdted.so "libdted.so.$soversion"; do
    good "$name is the same file" [ "target/shared/$name" -ef "$shared" ]
done
