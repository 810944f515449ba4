# The library, installed into a stage and built against. A part of tests/package.
# shellcheck shell=bash disable=SC2016,SC2154

# The libraries of ours that a program looks for when it starts.
needed() { # PROGRAM
    readelf -dW "$1" | sed -n 's/.*(NEEDED).*\[\(libdted.*\)\]/\1/p'
}

# What year 2 says of a shipped cell of an older delivery.
void_refused='refused 6: a post word is not allowed (offset 8756)'

# Runs built examples on shipped cells.
run_examples() { # WHAT FOLDER
    local out
    out=$(tools/x86-64 "$2/judge" cells/terrain.dt0 60 60 1234 "$work/corrected.dt0" 2>&1)
    same "$1: judge, its status" 0 $?
    same "$1: judge, its first line" 'cells/terrain.dt0: level 0, 121 columns of 121 posts' "$(head -n 1 <<<"$out")"
    same "$1: judge, its last line" '  column   60, post   60: 1234 m' "$(tail -n 1 <<<"$out")"
    same "$1: the corrected cell" 'accepted 0 121 121' "$(tools/x86-64 "$there/bin/dted-intake" <"$work/corrected.dt0")"
    out=$(tools/x86-64 "$2/judge" cells/wrong_first_checksum.dt0 2>&1)
    same "$1: judge of a wrong checksum, its status" 1 $?
    same "$1: judge of a wrong checksum" 'cells/wrong_first_checksum.dt0: refused 5: a checksum differs (offset 3678)' "$out"
    out=$(tools/x86-64 "$2/judge" cells/void_in_partial.dt0 2>&1)
    same "$1: judge of an old cell, its status" 1 $?
    same "$1: judge of an old cell" "cells/void_in_partial.dt0: $void_refused" "$out"
    tools/x86-64 "$2/write" "$work/written.dt0"
    good "$1: the written cell is the shipped one" cmp "$work/written.dt0" cells/terrain.dt0
    rm -f "$work/corrected.dt0" "$work/written.dt0"
}

# Builds the examples with CMake against the installed library.
with_cmake() { # WHAT TARGET
    good "$1: configured" cmake -S examples -B "$work/cmake" -DCMAKE_PREFIX_PATH="$there" -DDTED="$2" \
        -DCMAKE_C_COMPILER="$cc" "${cross[@]}"
    good "$1: built" cmake --build "$work/cmake" && run_examples "$1" "$work/cmake"
    same "$1: what it looks for" "$([ "$2" = dted::dted ] || echo "libdted.so.$soversion")" "$(needed "$work/cmake/judge")"
    rm -rf "$work/cmake"
}

# What CMake says of a request for a version, made twice as by two parts of a project, and of the folder of the headers.
asked_for() { # VERSION [PREFIX]
    cat >"$work/CMakeLists.txt" <<END
cmake_minimum_required(VERSION 3.13)
project(asks NONE)
find_package(dted $1 REQUIRED)
find_package(dted $1 REQUIRED)
get_target_property(folder dted::dted INTERFACE_INCLUDE_DIRECTORIES)
get_filename_component(folder "\${folder}" ABSOLUTE)
if(NOT EXISTS "\${folder}/dted.h")
  message(FATAL_ERROR "there is no header in \${folder}")
endif()
END
    rm -rf "$work/asks"
    cmake -S "$work" -B "$work/asks" -DCMAKE_PREFIX_PATH="${2:-$there}"
}

# Uninstalls; no file may be left, and no folder of the library's own.
take_away() { # WHAT VARIABLE..
    good "$1" make uninstall DESTDIR="$stage" PREFIX="$prefix" "${@:2}"
    same "$1: nothing is left" '' "$(find "$stage" ! -type d -o -path '*cmake/dted')"
    rm -rf "$stage"
}

# The functions of both headers, as the compiler sees them: each has a manual page, but for the headers' own, which end in _.
functions=$(printf '#include <%s>\n' dted.h dted_words.h | "$cc" -E -P -Iinclude -x c - | grep -oE '\bdted_[a-z0-9_]*[a-z0-9]\(' |
    tr -d '(' | sort -u)
due=$({
    sed -e "s/@VERSION@/$version/" -e "s/@SOVERSION@/$soversion/" tests/package.files
    # shellcheck disable=SC2086
    printf 'share/man/man3/%s.3\n' $functions
} | sort)

same 'the functions that dted.3 names' "$functions" "$(sed -n 's/^\.Nm \(dted_[a-z0-9_]*\).*/\1/p' man/dted.3 | sort)"
same 'the functions that dted.3 declares' "$functions" \
    "$(sed -n '/^\.Sh SYNOPSIS/,/^\.Sh DESCRIPTION/s/^\.F[on] \(dted_[a-z0-9_]*\).*/\1/p' man/dted.3 | sort)"

# ---- with one prefix ----
good 'install' bash -c 'umask 077 && make install DESTDIR="$1" PREFIX="$2"' - "$stage" "$prefix"
same 'what not all may read' '' "$(odd_modes "$there")"
same 'the links to the shared library' "libdted.so.$soversion libdted.so.$version" \
    "$(readlink "$there/lib/libdted.so") $(readlink "$there/lib/libdted.so.$soversion")"
good 'install once more' make install DESTDIR="$stage" PREFIX="$prefix"
same 'installed files' "$due" "$(cd "$there" && find . ! -type d -printf '%P\n' | sort)"
same 'files that name the stage' '' "$(grep -rlF "$stage" "$stage")"
good 'nothing is installed past the stage' [ ! -e "$prefix" ]
same 'files with a place to fill' '' "$(grep -rlE '@[A-Z_]+@' "$stage")"
for module in dted dted-shared; do
    same "the version in $module.pc" "$version" "$(config $module --modversion)"
done
cp -r "$there" "$work/moved"
same 'the words for a tree that was moved' "-I$work/moved/include -L$work/moved/lib -l:libdted.a" \
    "$(PKG_CONFIG_LIBDIR=$work/moved/lib/pkgconfig pkg-config --define-prefix --cflags --libs dted | sed 's/ *$//')"
for compiler in "$cc" $second; do
    built=yes
    for name in judge write; do
        good "$name, by $compiler" build "$compiler" dted "examples/$name.c" "$work/$name" || built=
    done
    [ -z "$built" ] || run_examples "pkg-config, $compiler" "$work"
    same "what $compiler links by dted" '' "$(needed "$work/judge")"
    good "judge, by $compiler and dted-shared" build "$compiler" dted-shared examples/judge.c "$work/judge" &&
        same "what $compiler links by dted-shared" "libdted.so.$soversion" "$(needed "$work/judge")"
done
good "the README's example" build "$cc" dted "$work/readme.c" "$work/readme" &&
    same "the README's example, run" 486 "$(tools/x86-64 "$work/readme" <cells/terrain.dt0)"
# what the README says that it prints
sed -n 's/^    \.\/height <\([^ ]*\) *# /\1 /p' README.md >"$work/shown"
good 'the README shows what its example prints, twice' [ "$(wc -l <"$work/shown")" -eq 2 ]
while read -r cell line; do
    same "the README's example on $cell" "$line" "$(tools/x86-64 "$work/readme" <"$cell")"
done <"$work/shown"
same "the README's example on an old cell" "$void_refused" "$(tools/x86-64 "$work/readme" <cells/void_in_partial.dt0)"
sed -n '/^\.Sh EXAMPLES/,/^\.Ed/{/^\.Bd/,/^\.Ed/{/^\./!{s/\\e/\\/g;p}}}' man/dted.3 >"$work/manual.c"
good "dted.3's example" build "$cc" dted "$work/manual.c" "$work/manual" &&
    same "dted.3's example, run" "486 $void_refused" \
        "$(tools/x86-64 "$work/manual" <cells/terrain.dt0) $(tools/x86-64 "$work/manual" <cells/void_in_partial.dt0 2>&1)"
good "the README's example, shared" build "$cc" dted-shared "$work/readme.c" "$work/readme" &&
    same "the README's example, shared, run" 486 "$(LD_LIBRARY_PATH=$there/lib tools/x86-64 "$work/readme" <cells/terrain.dt0)"
# shellcheck disable=SC2046
good "the README's example in C++" "$cxx" -std=c++11 -Wall -Wextra -Wpedantic -Werror -x c++ "$work/readme.c" -x none \
    $(config dted --cflags --libs) -o "$work/readme" &&
    same "the README's example in C++, run" 486 "$(tools/x86-64 "$work/readme" <cells/terrain.dt0)"
for header in dted dted_words; do
    # shellcheck disable=SC2046
    good "$header.h in C++" "$cxx" -std=c++11 -Wall -Wextra -Wpedantic -Werror $(config dted --cflags) -fsyntax-only \
        -x c++ - <<<"#include <$header.h>"
done
with_cmake 'CMake' dted::dted
with_cmake 'CMake, shared' dted::shared
good 'CMake asks for this version' asked_for "$version"
good 'CMake asks for its first two numbers' asked_for "$soversion"
good 'CMake asks for this version and no other' asked_for "$version EXACT"
mkdir "$work/linked" && ln -s "$there/lib" "$work/linked"
good 'CMake finds it by a link' asked_for "$version" "$work/linked"
bad 'CMake asks for other calls' 'considered but not accepted' asked_for "${soversion%.*}.$((${soversion#*.} - 1))"
bad 'CMake asks for a later version' 'considered but not accepted' asked_for "${version%.*}.$((${version##*.} + 1))"

# ---- from Python, where it can load the library ----
# What it prints, a reason on standard error without its words, and its status.
height() { # CELL LATITUDE LONGITUDE
    echo "$(examples/height.py "${library:-$there/lib/libdted.so}" "$@" 2>&1 >"${out:-/dev/stdout}" |
        sed 's/^height\.py: ..*/why/'; exit "${PIPESTATUS[0]}"), status $?"
}
if [ "$(uname -m)" = x86_64 ]; then
    same 'height.py' '486, status 0' "$(height cells/terrain.dt0 46.5 7.5)"
    same 'height.py, below the sea' '-60, status 0' "$(height cells/north_89.dt0 89 0)"
    same 'height.py, the word 8000' '0, status 0' "$(height cells/negative_zero.dt0 89 0)"
    python3 -B -c 'import sys
sys.path.insert(0, "tools")
from second_writer import repeated, with_texts, with_word
sys.stdout.buffer.write(with_word(with_texts(repeated(2, 89, 0), "42", 369), 7214, 600, 3600, 0xFFFF))' >"$work/void.dt2"
    same 'height.py, a void' 'void, status 0' "$(height "$work/void.dt2" 90 1)"
    same 'height.py, an old cell' 'refused 6 8756, status 1' "$(height cells/void_in_partial.dt0 90 1)"
    same 'height.py, a wrong checksum in another column' 'refused 5 3678, status 1' "$(height cells/wrong_first_checksum.dt0 0 -179.5)"
    same 'height.py, off the cell' 'refused 8 0, status 1' "$(height cells/terrain.dt0 1e300 7.5)"
    same 'height.py, no number' 'why, status 2' "$(height cells/terrain.dt0 north 7.5)"
    same 'height.py, no file' 'why, status 2' "$(height cells/none.dt0 46.5 7.5)"
    same 'height.py, a library without the calls' 'why, status 2' "$(library=libc.so.6 height cells/terrain.dt0 46.5 7.5)"
    same 'height.py, a full device' 'why, status 2' "$(out=/dev/full height cells/terrain.dt0 46.5 7.5)"
    same 'height.py, a full device and a refusal' 'why, status 2' "$(out=/dev/full height cells/terrain.dt0 1e300 7.5)"
fi

# ---- what the README shows of the tool, run in its order ----
# The commands of a session, each with what it prints.
as_shown() {
    (cd "$work/as_shown" && PATH=$there/bin:$PATH &&
        sed -n 's/^\$ //p' "$work/session" | while read -r line; do echo "\$ $line" && bash -c "$line"; done 2>&1)
}
if [ "$(uname -m)" = x86_64 ]; then
    mkdir "$work/as_shown" && cp -r cells "$work/as_shown" && cp cells/terrain.dt0 "$work/as_shown/copy.dt0"
    sed -n '/^## The tool$/,/^## /s/^    //p' README.md >"$work/session"
    same "the README's lines of the tool" "$(cat "$work/session")" "$(as_shown)"
    good 'the README shows eight commands' [ "$(grep -c '^\$ dted' "$work/session")" -eq 8 ]
fi

# ---- manual pages ----
for page in man/*; do
    # what this machine has of the pages that they name is nothing to them
    same "$page" '' "$(cd "$there/share/man" && mandoc -Tlint -Wstyle man?/"${page##*/}" 2>&1 |
        grep -vE 'referenced manual not found|outdated mandoc.db')"
done
# the intake program's line for the headers of a level 1 cell with another text in one field
judged() { # LATITUDE OFFSET TEXT
    python3 -B -c 'import sys
sys.path.insert(0, "tools")
from second_writer import headers, with_texts
sys.stdout.buffer.write(with_texts(bytes(headers(1, int(sys.argv[1]), 7)), sys.argv[3], int(sys.argv[2])))' "$@" |
        tools/x86-64 "$there/bin/dted-intake"
}
same "dted.3's examples of header fields" "$(sed -n 's/^\.It Li \(refused .*\)/\1/p' man/dted.3)" \
    "$(judged 46 20 003O; judged 46 167 '7 '; judged 46 139 DTED0; judged 47 265 460000.0N; judged 52 47 1201; judged 46 361 0121)"
if [ "$(uname -m)" = x86_64 ]; then
    cp cells/void_in_partial.dt0 "$work/as_shown/old.dt0"
    sed -n '/^\$ dted-intake < old/,/^\.Ed/{/^\.Ed/!p}' man/dted-intake.1 >"$work/session"
    same "dted-intake.1's lines of an old cell" "$(cat "$work/session")" "$(as_shown)"
    good "dted-intake.1 shows two commands" [ "$(grep -c '^\$ dted' "$work/session")" -eq 2 ]
fi
same "functions whose page is not the library's" '' "$(cd "$there/share/man/man3" && grep -LFx '.so man3/dted.3' dted_*)"
take_away 'uninstall'

# ---- with folders of the caller's ----
other=(LIBDIR="$prefix/lib/x86_64-linux-gnu" INCLUDEDIR="$prefix/share/dted/include" MANDIR="$prefix/man")
good 'install in other folders' make install DESTDIR="$stage" PREFIX="$prefix" "${other[@]}"
good 'judge, from other folders' build "$cc" dted examples/judge.c "$work/judge"
with_cmake 'CMake, from other folders' dted::dted
take_away 'uninstall from other folders' "${other[@]}"
