# The lines of docs/MANY.md that need one machine, as the page has them, and bench/many. A part of tests/package.
# shellcheck shell=bash disable=SC2016,SC2154

if [ "$(uname -m)" = x86_64 ]; then
    # Runs the page's lines over a folder `cells`; those that end in 123 are told apart by what they write.
    as_written() { # FOLDER
        (cd "$1" && PATH=$work/second/bin:$PATH bash -eo pipefail <(sed 's/>lines 2>unread$/& || [ $? = 123 ]/' "$work/script") 2>&1)
    }
    sed -n '/^```sh$/,/^```$/{/^```/!p}' docs/MANY.md | grep -v parallel >"$work/script"
    mkdir -p "$work/many" "$work/none/cells" && cp -r cells "$work/many"
    cp cells/terrain.dt0 "$work/many/cells/N46.DT0"
    cp cells/terrain.dt0 "$work/many/cells/a: refused 3: b (offset 1).dt0"
    cp cells/terrain.dt0 "$work/many/cells/a: refused 3: b.dt0"
    cp cells/empty.dt0 "$work/many/cells/c: accepted, d.dt0"
    cp cells/empty.dt0 "$work/many/cells/e: refused 3: f.dt0"
    good 'docs/MANY.md, where refusals are no failure' as_written "$work/many"
    same 'docs/MANY.md, the lines' "$(find "$work/many/cells" -name '*.[dD][tT]?' | wc -l)" "$(grep -c . "$work/many/lines")"
    same 'docs/MANY.md, the refused cells' "$({ grep -l '^refused' cells/*.line && printf 'cells/%s.line\n' 'c: accepted, d' 'e: refused 3: f'; } |
        sed 's/\.line$//' | LC_ALL=C sort)" "$(sed 's/\.dt.$//' "$work/many/refused" | LC_ALL=C sort)"
    good 'docs/MANY.md, without cells' as_written "$work/none"
    same 'docs/MANY.md, without cells: what is said' '' "$(cat "$work/none/lines" "$work/none/unread")"
fi

# ---- bench/many, with a stand-in that takes its time for each ten cells ----
mkdir -p "$tree/target/tool" "$tree/target/examples"
printf '#!/bin/sh\nshift\nsleep 0.08\nprintf "%%s: accepted, level 2\\n" "$@"\n' >"$tree/target/tool/dted"
printf '#!/bin/sh\n: >"$1"\n' >"$tree/target/examples/write"
chmod +x "$tree/target/tool/dted" "$tree/target/examples/write"
good 'bench/many' in_tree bench/many 20 && cp "$work/log" "$work/rounds"
same 'bench/many, its rounds' 5 "$(grep -cE '^[0-9.]+  -P 1: [0-9]+ ms, -P 2: [0-9]+ ms' "$work/rounds")"
good 'bench/many, two at once are faster' [ "$(sed -nE 's/^([0-9]+)\.([0-9]+) .*\(median\)$/\1\2/p' "$work/rounds")" -gt 130 ]
printf '#!/bin/sh\nshift\nprintf "%%s: refused 1\\n" "$@"\n' >"$tree/target/tool/dted"
bad 'bench/many, where cells are refused' '(median)' in_tree bench/many 20
