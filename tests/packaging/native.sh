# tools/native over a stand-in for the kit, in the unpacked sources: what it asks for, and when it gives up. A part of tests/package.
# shellcheck shell=bash disable=SC2016,SC2154
kit=$work/kit/toolchain/bin
mkdir -p "$kit" "$work/kit/toolchain/lib" "$work/kit/bin"
# the compiler tells what it was given, and of which module
cat >"$kit/clang" <<'END'
#!/bin/sh
for word; do out=$word; done
case $* in
*emit-llvm*) echo 'attributes #0 = { nounwind "target-cpu"="x86-64" }' >"$out" ;;
*) echo "compiled: $* of $(cat module.bc)" >"$out" ;;
esac
END
# rt compiles, with the kit that its own file stands in, for long enough that a second one would meet it
cat >"$work/kit/bin/rt" <<END
#!/bin/sh
[ "\$1" != doc ] || { echo "$work/kit/START-HERE.md" && exit; }
echo "\${PWD##*/} \$*" >>"$work/asked"
[ -z "\${FAILING:-}" ] || { echo "error: unknown target CPU 'none'" && exit 2; }
mkdir -p out && mkdir out/begun || echo 'two at once' >>"$work/asked"
echo module >module.bc
"\$(dirname "\$(dirname "\$(realpath "\$0")")")/toolchain/bin/clang" -march=x86-64 -O2 -x ir module.bc -o module.o
sleep 0.3 && mv module.o out/libdted_c.a && rm -r module.bc out/begun
END
chmod +x "$kit/clang" "$work/kit/bin/rt" && touch "$work/kit/bin/rtlib.py"
native() { # OUT WORD..
    in_tree env PATH="$work/kit/bin:$PATH" tools/native "$work/$1" "${@:2}"
}
for_any='attributes #0 = { nounwind }'

: >"$work/asked"
(cd "$tree" && PATH=$work/kit/bin:$PATH && { tools/native "$work/one" aarch64 & } && tools/native "$work/two" x86_64 haswell && wait $!)
same 'two at once, their status' 0 $?
same 'two at once, what rt is asked' \
    'dted_c lib --target aarch64-unknown-linux-gnu,dted_c lib --target x86_64-unknown-linux-gnu --cpu x86-64' \
    "$(LC_ALL=C sort "$work/asked" | paste -sd,)"
same 'the first one' 'compiled: -march=x86-64 -O2 -x ir module.bc -o module.o of module' "$(cat "$work/one")"
same 'the second one' "compiled: -march=haswell -O2 -x ir module.bc -o module.o of $for_any" "$(cat "$work/two")"
# the processors that the kit knows are its own affair
good 'a third one' native three x86_64 x86-64-v3
same 'a third one, what rt is asked' 'dted_c lib --target x86_64-unknown-linux-gnu --cpu x86-64-v3' "$asked"
same 'the third one' "$(cat "$work/one")" "$(cat "$work/three")"
# it is made of the sources, whatever stands beside them
mkdir -p "$tree/target/staticlib" && echo 'of other sources' >"$tree/target/staticlib/libdted.a"
good 'beside an archive of other sources' native four aarch64 armv8.2-a
same 'beside an archive of other sources, what rt is asked' 'dted_c lib --target aarch64-unknown-linux-gnu' "$asked"
same 'beside an archive of other sources, what is made' "compiled: -march=armv8.2-a -O2 -x ir module.bc -o module.o of $for_any" "$(cat "$work/four")"
same 'the other archive' 'of other sources' "$(cat "$tree/target/staticlib/libdted.a")"
# a kit that cannot
bad 'a processor that the kit refuses' "unknown target CPU 'none'" in_tree env FAILING=yes PATH="$work/kit/bin:$PATH" \
    tools/native "$work/five" x86_64 none
good 'a processor that the kit refuses: nothing is made' [ ! -e "$work/five" ]
rm -rf "$tree/target/staticlib"
