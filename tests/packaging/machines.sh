# Archives for other machines and processors, where the archive is the tree's own and the kit there. A part of tests/package.
# shellcheck shell=bash disable=SC2016,SC2154

# Counts two tests: one is made under its name, with the calls in it; where words are refused, none may be left.
lib_for() { # NAME WORD..
    made=target/lib/libdted-$1.a
    good "make lib ${*:2}" make lib "${@:2}" &&
        same "the names of $made" "$calls" "$(names "$made" -g --defined-only)"
}
refuses_words() { # NAME MESSAGE WORD..
    bad "make lib ${*:3}" "$2" make lib "${@:3}"
    good "make lib ${*:3}: no archive is left" [ ! -e "target/lib/libdted-$1.a" ]
}
machine_of() { # ARCHIVE
    readelf -h "$1" | sed -n 's/.*Machine: *//p'
}

if [ "$archive" = "$own" ]; then
    lib_for x86_64 MACHINE=x86_64
    good 'for x86-64 it is the plain archive' cmp "$made" "$archive"
    lib_for x86-64-v3 CPU=x86-64-v3
    good 'its code has what that processor has' grep -q '%ymm' <("$objdump" -d "$made")
    good 'the plain code has not' [ -z "$("$objdump" -d "$archive" | grep '%ymm')" ]
    # a processor that no other suite asks for at the same time
    lib_for haswell CPU=haswell
    times=$(stat -c %y "$made" "$archive")
    lib_for haswell CPU=haswell
    same 'what is made once more' "$times" "$(stat -c %y "$made" "$archive")"
    lib_for aarch64 MACHINE=aarch64
    same 'its machine' AArch64 "$(machine_of "$made")"
    same 'what the compiler says of it' '' "$(tools/native "$work/aarch64.a" aarch64 2>&1)"
    lib_for aarch64-armv8.2-a MACHINE=aarch64 CPU=armv8.2-a
    same 'its machine, with a processor' AArch64 "$(machine_of "$made")"
    refuses_words nonsense "unknown target CPU 'nonsense'" CPU=nonsense
    refuses_words aarch64-nonsense "unsupported argument 'nonsense'" MACHINE=aarch64 CPU=nonsense
    refuses_words nonsense "'nonsense' is no machine" MACHINE=nonsense

    # ---- installed and packed ----
    good 'install MACHINE=aarch64' make install MACHINE=aarch64 DESTDIR="$stage" PREFIX="$prefix"
    same 'install MACHINE=aarch64, the intake program' "1 $(grep -v '^bin/dted-intake$' <<<"$due")" \
        "$(grep -c 'dted-intake is left out' "$work/log") $(cd "$there" && find . ! -type d -printf '%P\n' | sort)"
    for file in lib/libdted.a lib/libdted.so bin/dted; do
        same "install MACHINE=aarch64, the machine of $file" AArch64 "$(machine_of "$there/$file")"
    done
    good 'dist CPU=x86-64-v3' make -s dist CPU=x86-64-v3 DIST="$work/v3"
    same 'dist CPU=x86-64-v3, the intake program' 1 "$(grep -c 'dted-intake is left out' "$work/log")"
    good 'its archive is for that processor' cmp target/lib/libdted-x86-64-v3.a \
        <(tar -xzOf "$work/v3/dted-$version-x86_64-x86-64-v3-linux.tar.gz" "dted-$version-x86_64-x86-64-v3-linux/lib/libdted.a")
    rm -rf "$stage"
fi
