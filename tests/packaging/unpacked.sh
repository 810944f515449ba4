# Both archives of `make dist`, unpacked and installed where there is no kit. A part of tests/package.
# shellcheck shell=bash disable=SC2016,SC2154
dist=$work/dist empty=$work/empty bare=$work/bare
packed=dted-$version-x86_64-linux

# Runs a command in a folder with these tools on the PATH and no other.
without_kit() { # FOLDER COMMAND..
    (cd "$1" && env -i PATH="$bare" CC="$cc" "${@:2}")
}
mkdir "$bare"
for tool in as awk bash cat chmod cmp cp dirname echo env find grep gzip install ld ln make mkdir pkg-config realpath rm rmdir sed \
    sh sha256sum tac tar uname xargs "$cc"; do
    ln -s "$(type -P "$tool")" "$bare"
done

# Unpacks an archive into an empty folder, for its owner alone, and gives the folder in it.
unpack() { # NAME
    fresh=$empty/$1
    rm -rf "$empty" && mkdir -p "$fresh" && (umask 077 && without_kit "$empty" tar --no-same-permissions -xzf "$dist/$1.tar.gz")
}

# The words that pkg-config has for an install that was not staged.
flags() { # PREFIX
    without_kit "$work" env PKG_CONFIG_LIBDIR="$1/lib/pkgconfig" pkg-config --cflags --libs dted
}

good 'dist' make -s dist DIST="$dist"
same 'the packed files' "SHA256SUMS $packed.tar.gz dted-$version.tar.gz" \
    "$(find "$dist" -type f -printf '%f\n' | LC_ALL=C sort | xargs)"
good 'the sums of both archives' without_kit "$dist" sha256sum --quiet --check SHA256SUMS
for name in "$packed" "dted-$version"; do
    tar --numeric-owner -tvzf "$dist/$name.tar.gz" >"$work/list"
    same "$name: owners" 0/0 "$(awk '{print $2}' "$work/list" | sort -u)"
    same "$name: modes" '-rw-r--r-- -rwxr-xr-x drwxr-xr-x' "$(awk '!/^l/ {print $1}' "$work/list" | LC_ALL=C sort -u | xargs)"
    same "$name: times" 1 "$(awk '{print $4, $5}' "$work/list" | sort -u | wc -l)"
    # a folder goes before all that begins with its name
    good "$name: in the order of names" env LC_ALL=C sort -c <(tar -tzf "$dist/$name.tar.gz" | tr / '\1')
    same "$name: the time in its head" '00 00 00 00' "$(od -An -tx1 -j4 -N4 "$dist/$name.tar.gz" | xargs)"
done
bad 'the kit is not there' '' without_kit "$work" bash -c 'command -v rt'

# ---- the built archive ----
unpack "$packed"
same 'what it has beside what is installed' "$(git ls-files README.md docs cells examples tool | sort)" \
    "$(cd "$fresh" && find . ! -type d -printf '%P\n' | grep -vE '^(bin|include|lib|share)/|^SHA256SUMS$|^install$' | sort)"
for link in $(grep -oE '\]\([^)#:]+\)' README.md | tr -d ']()' | sort -u); do
    good "$link, which the README leads to" [ -e "$fresh/$link" ]
done
good 'the built archive installs' without_kit "$fresh" ./install "$work/first"
same 'what not all may read of it' '' "$(odd_modes "$work/first")"
make -s install DESTDIR="$work/made" PREFIX="$work/first" >"$work/log" 2>&1
same 'it installs what make install does' '' "$(diff -r "$work/made$work/first" "$work/first")"
same 'its links are links' "libdted.so.$soversion" "$(readlink "$work/first/lib/libdted.so")"
# shellcheck disable=SC2046
good "the README's example, without the kit" without_kit "$work" "$cc" readme.c $(flags "$work/first") -o readme &&
    same "the README's example, without the kit, run" 486 "$(tools/x86-64 "$work/readme" <cells/terrain.dt0)"
same 'the tool, without the kit' 'cells/terrain.dt0: accepted' \
    "$(tools/x86-64 "$work/first/bin/dted" check cells/terrain.dt0 2>&1 | grep -oE '^[^:]*: [a-z]*')"
ln "$work/first/bin/dted" "$work/in_use"
good 'it installs over itself' without_kit "$fresh" ./install "$work/first"
good 'a file in use is not written over' [ ! "$work/in_use" -ef "$work/first/bin/dted" ]
good 'it installs elsewhere' without_kit "$fresh" ./install "$work/second"
touch "$work/first/lib/other"
good 'it takes itself away' without_kit "$fresh" ./install --remove "$work/first"
same 'what it leaves' "$work/first/lib/other" "$(find "$work/first" ! -type d -o -path '*cmake/dted')"
rm -rf "$work/first"
# shellcheck disable=SC2046
good "the README's example, from elsewhere" without_kit "$work" "$cc" readme.c $(flags "$work/second") -o readme
good 'it installs below DESTDIR' without_kit "$fresh" env DESTDIR="$work/staged" ./install "$prefix"
same 'dted.pc below DESTDIR' "prefix=$prefix" "$(head -n 1 "$work/staged$prefix/lib/pkgconfig/dted.pc")"
good 'it takes itself away below DESTDIR' without_kit "$fresh" env DESTDIR="$work/staged" ./install --remove "$prefix"
same 'what it leaves below DESTDIR' '' "$(find "$work/staged" ! -type d)"
good 'it installs below a DESTDIR from where the caller stands' without_kit "$work" env DESTDIR='far off' "$fresh/install" "$prefix"
good 'it is there' [ -x "$work/far off$prefix/bin/dted" -a ! -e "$fresh/far off" ]
for words in '' third "$work/third $work/fourth" "--remove $work/third $work/fourth" "$work/third --remove" --remove; do
    # shellcheck disable=SC2086
    bad "./install $words" 'usage: ./install [--remove] PREFIX' without_kit "$fresh" ./install $words
done
for sign in ' ' '&' '|' \\ "'" '"' '$' '#' '`' '[' ']'; do
    bad "a prefix with $sign" 'the prefix may have no blank' without_kit "$fresh" ./install "$work/third${sign}x"
done
same 'where nothing was to be installed' '' "$(find "$work" -maxdepth 1 -name 'third*')"

# ---- the same, with what was not packed ----
refuses() { # WHAT
    bad "$1" 'nothing is installed' without_kit "$fresh" ./install "$work/third"
    good "$1: nothing is there" [ ! -e "$work/third" ]
}
for file in lib/libdted.a bin/dted include/dted.h README.md install; do
    unpack "$packed"
    printf x >>"$fresh/$file" && refuses "$file with a byte more"
done
unpack "$packed" && rm "$fresh/lib/libdted.so" && refuses 'a link that is gone'
unpack "$packed" && touch "$fresh/bin/other"
good 'a file that was not packed' without_kit "$fresh" ./install "$work/third"
good 'a file that was not packed is not installed' [ -e "$work/third/bin/dted" -a ! -e "$work/third/bin/other" ]

# ---- the sources ----
unpack "dted-$version"
cp "$archive" "$work/given.a"
same 'the packed sources' "$(git ls-files | sort)" "$(cd "$fresh" && find . ! -type d -printf '%P\n' | sort)"
bad 'dist, without the repository' 'dist: it needs the repository' env -C "$fresh" make dist
bad 'the sources alone' 'make install ARCHIVE=path' without_kit "$fresh" make install DESTDIR="$stage" PREFIX="$prefix"
bad 'the sources alone, run' 'there is no rt on the PATH' without_kit "$fresh" make run
same 'the sources alone, run: no word of an archive' 0 "$(grep -c ARCHIVE "$work/said")"
good 'the sources alone: nothing is there' [ ! -e "$stage" ]
good 'the sources, with an archive' without_kit "$fresh" make install DESTDIR="$stage" PREFIX="$prefix" ARCHIVE="$work/given.a"
same 'the sources, with an archive, say' 1 "$(grep -cF 'dted-intake is left out' "$work/log")"
same 'what they install' "$(grep -v '^bin/dted-intake$' <<<"$due")" "$(cd "$there" && find . ! -type d -printf '%P\n' | sort)"
good 'the archive is the one given' cmp "$work/given.a" "$there/lib/libdted.a"
good 'the sources, with a program too' without_kit "$fresh" make install DESTDIR="$stage" PREFIX="$prefix" \
    ARCHIVE="$work/given.a" INTAKE="$work/second/bin/dted-intake"
good 'the program is the one given' cmp "$work/second/bin/dted-intake" "$there/bin/dted-intake"
rm -rf "$stage"

# ---- the sources, with what the kit made before ----
# Installs; what is said of the intake program, and whether it is there.
intake_of() { # WORD..
    without_kit "$fresh" make install DESTDIR="$stage" PREFIX="$prefix" "$@" >"$work/log" 2>&1
    echo "status $?, left out $(grep -cF 'dted-intake is left out' "$work/log"), there $(find "$stage" -name dted-intake | wc -l)"
    rm -rf "$stage"
}
mkdir -p "$fresh/target/staticlib" "$fresh/target/bin"
made=(ARCHIVE=target/staticlib/libdted.a INTAKE=target/bin/intake_program)
cp "$work/given.a" "$fresh/${made[0]#*=}" && touch "$fresh/${made[0]#*=}"
same 'after make lib' 'status 0, left out 1, there 0' "$(intake_of)"
cp "$work/second/bin/dted-intake" "$fresh/${made[1]#*=}"
same 'after make run too' 'status 0, left out 0, there 1' "$(intake_of)"
touch -d 2000-01-01 "$fresh/${made[1]#*=}"
same 'with a program that is older than its sources' 'status 0, left out 1, there 0' "$(intake_of)"
touch -d 2000-01-01 "$fresh/${made[0]#*=}"
same 'with an archive that is older too' 'status 2, left out 0, there 0' "$(intake_of)"
same 'with both of them given' 'status 0, left out 0, there 1' "$(intake_of "${made[@]}")"
rm -r "$fresh/target"

# ---- packed once more: by another user, from a copy of the repository in which the tool was made otherwise ----
copy=$work/copy
mkdir "$copy" && git ls-files -z | xargs -0 cp -P --parents -t "$copy"
cp "$work/second/bin/dted-intake" "$work/given-intake"
in_copy() { # COMMAND..
    local other=()
    [ "$(id -u)" != 0 ] || other=(setpriv --reuid=65534 --regid=65534 --clear-groups)
    (cd "$copy" && umask 077 && ARCHIVE=$work/given.a INTAKE=$work/given-intake HOME=$copy "${other[@]}" "$@")
}
[ "$(id -u)" != 0 ] || chown -R 65534:65534 "$copy"
good 'a copy' in_copy git init -q && in_copy git add -A
good 'the same commit in it' in_copy env GIT_COMMITTER_DATE="@$(git log -1 --format=%ct)" \
    git -c user.name=other -c user.email=other commit -qm other
good 'the tool in it, made otherwise' in_copy make -s tool CFLAGS=-O0
good 'dist once more' in_copy make -s dist
edits=$(grep -c edits "$work/log")
same 'dist once more, its difference' '' "$(diff -r "$dist" "$copy/dist")"
same 'dist says nothing of edits' 0 "$edits"
in_copy mkdir -p 'target/small/@PREFIX@' && in_copy sed -i '$s/$/ /' README.md
good 'dist with an edit' in_copy tools/dist target/small none target/none
same 'dist says so' 1 "$(grep -c '^dist: there are edits' "$work/log")"
