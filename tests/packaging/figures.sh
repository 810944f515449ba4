# Which run `make figures` keeps, and what `make bench` changes, with a stand-in for the bench. A part of tests/package.
# shellcheck shell=bash disable=SC2016,SC2154
kit=$work/kit/toolchain/bin
mkdir -p "$kit" "$tree/target/bench"
printf '#!/bin/sh\necho clang version 1.2.3\n' >"$kit/clang"
printf '#!/bin/sh\n[ "$1" = doc ] && echo "%s" || echo rattle-kit-0\n' "$work/kit/START-HERE.md" >"$work/bin/rt"
cp "$tree/bench/last.txt" "$work/last.txt"
# a run with the next of the ratios, and the run's number for its time
cat >"$tree/target/bench/bench" <<END
#!/bin/sh
read -r ratio run <"$work/ratios" || exit 3
sed -i 1d "$work/ratios"
sed -E "s/^(intake +library +x86-64) .* to .*/\1  \$ratio  1.00 to 9.00  4.00  \$run/" "$work/last.txt" | tail -n +3
END
chmod +x "$kit/clang" "$tree/target/bench/bench"

# What is tracked and comes from a run.
figures() {
    (cd "$tree" && sha256sum bench/last.txt docs/figures.svg docs/FIGURES.md)
}
keeps() { # RUN RATIO..
    printf '%s\n' "$2 1111" "$3 2222" "$4 3333" >"$work/ratios"
    good "figures of $2, $3 and $4" in_tree make -s figures -o target/bench/bench
    same "the run kept of $2, $3 and $4" "$1" "$(sed -nE 's/^intake +library +x86-64 .* to .* ([0-9]{4})$/\1/p' "$tree/bench/last.txt")"
    same "its row in FIGURES.md" 1 "$(grep -cE "^\| intake \| library \| x86-64 \| .* to .* \| $1 \|$" "$tree/docs/FIGURES.md")"
}

before=$(figures)
echo '2.00 1111' >"$work/ratios"
good 'bench' in_tree make -s bench -o target/bench/bench
same 'bench, what it prints' 1 "$(grep -cE '^intake +library .* 1111$' "$work/log")"
same 'bench, what it changes' "$before" "$(figures)"
bad 'figures of a bench that fails' '' in_tree make -s figures -o target/bench/bench
same 'figures of a bench that fails, what they change' "$before" "$(figures)"
keeps 1111 2.10 2.50 1.90
keeps 2222 1.90 2.10 2.50
keeps 3333 10.50 9.50 9.90
same 'all ratios are told' 1 "$(grep -cF '9.50, 9.90, 10.50' "$tree/docs/FIGURES.md")"

# ---- beside another archive: its names are apart, and it is the one that was named, also where an earlier one was newer ----

linked() { # NAME WORD MADE VARIABLE..
    good "beside $1.a" in_tree make -s "$3" "${@:4}"
    same "beside $1.a, its names" "$2_dted_$1" "$(nm "$tree/$3" | sed -n 's/.* T //p')"
}
beside() { # NAME
    echo "int dted_$1(void) { return 0; }" >"$work/$1.c"
    cc -c "$work/$1.c" -o "$work/$1.o" && ar rcs "$work/$1.a" "$work/$1.o" && touch -d '2 days ago' "$work/$1.a"
    linked "$1" old target/bench-beside/old.a OLD="$work/$1.a"
    linked "$1" v3 target/bench/v3.a ARCHIVE="$work/$1.a" ARCHIVE_V3="$work/$1.a"
}
beside first
beside second
