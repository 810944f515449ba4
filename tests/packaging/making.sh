# What make asks the kit for and when, in the unpacked sources with a stand-in for rt. A part of tests/package.
# shellcheck shell=bash disable=SC2016,SC2154
tree=$work/empty/dted-$version

# A stand-in that notes what it is asked and in which crate's folder, prints as rt does, and makes the archive or the program. With
# PROVED=yes it makes nothing, as where what it made before is there; with FAILING=yes it fails after that.
mkdir -p "$work/bin"
cat >"$work/bin/rt" <<END
#!/bin/sh
crate=\${PWD##*/}
echo "\$crate \$*" >>"$work/asked"
echo 'rt: chose --jobs 1 for octets'
echo 'fn octets::sums::sum: proved'
mkdir -p out
case \$crate\${PROVED:-} in
dted_c) cp "$work/given.a" out/libdted_c.a ;;
intake_program) cp "$work/second/bin/dted-intake" out/intake_program ;;
esac
[ -z "\${FAILING:-}" ] && exit
echo './proofs/sum/Answers.antt:7:19: error: a slip'
echo 'src/sums.rt:8:1: error[unexpected-token]: another slip'
echo 'note: src/sums.rt:9:5: it is not proved that the sum fits'
exit 3
END
chmod +x "$work/bin/rt"

# Runs a command in the sources, with the stand-in; what rt was asked meanwhile is in `asked`.
in_tree() { # COMMAND..
    local status=0
    : >"$work/asked"
    (cd "$tree" && PATH=$work/bin:$PATH && unset ARCHIVE INTAKE && "$@") || status=$?
    asked=$(paste -sd, "$work/asked")
    return $status
}
# Makes files of the sources newer than all that was made; times are a few milliseconds apart at least.
edit() { # FILE..
    (cd "$tree" && sleep 0.02 && touch "$@")
}
# Counts two tests: a command ends well, and this is what rt is asked.
asks() { # WHAT ASKED COMMAND..
    good "$1" in_tree "${@:3}"
    same "$1: what rt is asked" "$2" "$asked"
}

rm -rf "$tree/target"
asks 'lib' 'dted_c lib --cpu x86-64' make lib
asks 'lib once more' '' make lib
edit crates/octets/src/lib.rt
asks 'lib after an edit in a crate that it stands on' 'dted_c lib --cpu x86-64' make lib
edit crates/printing/src/lib.rt crates/octets/must-fail/*.edit
asks 'lib after an edit in another crate, and in edits that must fail' '' make lib
edit crates/dted/proofs/New.antt
asks 'lib with a file more' 'dted_c lib --cpu x86-64' make lib
rm "$tree/crates/dted/proofs/New.antt" && edit crates/dted/proofs
asks 'lib with a file less' 'dted_c lib --cpu x86-64' make lib
edit crates.txt
asks 'lib after an edit of crates.txt' 'dted_c lib --cpu x86-64' make lib

# the answer alone is on standard output, and a line a crate on the other
same 'run, its line' "$(cat cells/north_89.line)" "$(in_tree make -s run 2>"$work/shown")"
same 'run, what else is shown' 'rt: chose --jobs 1 for octets' "$(cat "$work/shown")"
same 'run, what is kept' 2 "$(wc -l <"$tree/target/log/rt-run-intake_program.log")"
asks 'run once more' '' make -s run
edit crates/printing/src/lib.rt
asks 'run after an edit' 'intake_program run --cpu x86-64' make -s run
edit crates/printing/src/lib.rt
asks 'run after an edit that changes nothing' 'intake_program run --cpu x86-64' env PROVED=yes make -s run
asks 'run after that' '' make -s run
edit crates/octets/src/lib.rt
asks 'install after an edit' 'dted_c lib --cpu x86-64,intake_program run --cpu x86-64' make install DESTDIR="$stage" PREFIX="$prefix"

# ---- a proof that fails ----
edit crates/octets/src/lib.rt
bad 'run after a slip' 'proofs/sum/Answers.antt:7:19: error: a slip' in_tree env FAILING=yes make -s run
same 'run after a slip, a slip that no proof shows' 1 "$(grep -cF 'src/sums.rt:8:1: error[unexpected-token]: another slip' "$work/said")"
same 'run after a slip, what is not proved' 1 "$(grep -cF 'note: src/sums.rt:9:5: it is not proved' "$work/said")"
same 'run after a slip, where all of it is' 1 "$(grep -cF 'is in target/log/rt-run-intake_program.log' "$work/said")"
asks 'run after the slip is put right' 'intake_program run --cpu x86-64' make -s run
edit crates/octets/src/lib.rt
bad 'install after a slip' 'rt lib in crates/dted_c ended in 3' in_tree env FAILING=yes make install DESTDIR="$stage" PREFIX="$prefix"
same 'the status of rt' 3 "$(in_tree env FAILING=yes tools/prove target/bin/other intake_program 2>/dev/null || echo $?)"

# ---- other archives, by their bytes ----
# When a program was last linked.
linked() {
    stat -c %y "$tree/target/tool/dted" "$tree/target/shared/libdted.so.$version"
}
echo 'int dted_none, none;' | "$cc" -c -x c - -o "$work/none.o"
cp "$work/given.a" "$work/other.a" && "${nm%nm}ar" rc "$work/other.a" "$work/none.o" && touch -d 2000-01-01 "$work/other.a"
good 'the tool' in_tree make tool shared ARCHIVE="$work/given.a"
before=$(linked)
touch "$work/given.a"
good 'the tool once more' in_tree make tool shared ARCHIVE="$work/given.a"
same 'the same archive is not linked again' "$before" "$(linked)"
good 'the tool, of another archive' in_tree make tool shared ARCHIVE="$work/other.a"
good 'an older archive is linked' [ "$before" != "$(linked)" ]
same 'of its names one is seen from outside' dted_none "$(names "$tree/target/shared/libdted.so" -D --defined-only | grep none)"
edit crates/octets/src/lib.rt
rm -rf "$stage"
asks 'install of that archive' '' make install DESTDIR="$stage" PREFIX="$prefix" ARCHIVE="$work/other.a"
touch "$tree/target/bin/intake_program"
good 'install of that archive once more' in_tree make install DESTDIR="$stage" PREFIX="$prefix" ARCHIVE="$work/other.a"
same 'the plain program is not beside it' '1, 0' \
    "$(grep -cF 'dted-intake is left out' "$work/log"), $(find "$stage" -name dted-intake | wc -l)"
rm -rf "$stage"
echo 'int dted_needs_more(void); int dted_more(void) { return dted_needs_more(); }' | "$cc" -c -x c - -o "$work/none.o"
"${nm%nm}ar" rc "$work/other.a" "$work/none.o"
bad 'an archive that needs more' dted_needs_more in_tree make shared ARCHIVE="$work/other.a"
good 'an archive that needs more: nothing is left' [ ! -e "$tree/target/shared/libdted.so.$version" ]

# ---- what else a program is made anew for ----
made_anew() { # PROGRAM FILE
    local before
    before=$(stat -c %y "$tree/target/$1")
    [ -z "$2" ] || edit "$2"
    in_tree make "${1%/*}" ARCHIVE="$work/given.a" >/dev/null 2>&1
    [ "$before" = "$(stat -c %y "$tree/target/$1")" ] && echo no || echo yes
}
good 'all programs' in_tree make tool examples ARCHIVE="$work/given.a"
for file in '' include/dted.h include/dted_words.h; do
    for program in tool/dted examples/judge; do
        same "$program after an edit of '$file'" "$([ -z "$file" ] && echo no || echo yes)" "$(made_anew $program "$file")"
    done
done
same 'the tool after an edit of tool/say.h' yes "$(made_anew tool/dted tool/say.h)"
echo 9.8.7 >"$tree/VERSION"
good 'the shared library of another version' in_tree make shared ARCHIVE="$work/given.a"
same 'its files' 'libdted.so libdted.so.9.8 libdted.so.9.8.7' "$(cd "$tree/target/shared" && echo libdted.so*)"
same 'its soname' libdted.so.9.8 "$(readelf -dW "$tree/target/shared/libdted.so" | sed -n 's/.*(SONAME).*\[\(.*\)\]/\1/p')"
echo "$version" >"$tree/VERSION"
