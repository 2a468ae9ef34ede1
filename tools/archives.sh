#!/bin/sh
# archives.sh TARGET DIR [NAME..]: proves each static library NAME_c of crates.txt, all where none is named, and writes
# its archive as DIR/libNAME.a, for the processor that TARGET names. rt proves nothing again that has not changed.
# It ends with 127 where there is no rt.
set -eu
command -v rt >/dev/null || {
    echo 'archives.sh: there is no command rt on the PATH.' >&2
    exit 127
}
target=$1
mkdir -p "$2"
folder=$(cd "$2" && pwd)
shift 2
cd "$(dirname "$0")/.."

# NAME: the libraries that its line of crates.txt lists
listed() {
    sed -n "s/^$1\( staticlib\)* *: *//p" crates.txt
}

# NAME: those, and those below them
below() {
    awk -v name="$1" '
        function walk(of, uses, n, i) {
            n = split(line[of], uses, " ")
            for (i = 1; i <= n; i++) if (!(uses[i] in seen)) { seen[uses[i]]; print uses[i]; walk(uses[i]) }
        }
        /^[a-z]/ { split($0, part, ":"); split(part[1], head, " "); line[head[1]] = part[2] }
        END { walk(name) }' crates.txt
}

# NAME: builds it over its libraries where each is as `rt ci` has just made it, in a clone that has no others: `rt lib`
# takes none of these, and would prove all of them once more. A library counts where nothing that it is made from is younger.
over_ci() {
    crate=$1
    all=$(below "$crate")
    kit=$(dirname "$(rt doc)")
    set -- --extern "core=$kit/rlibs/core.rlib" --extern "std=$kit/rlibs/std.rlib" -L "dependency=$kit/rlibs"
    for it in $all; do
        made=crates/$it/out/rlib
        [ -d "$made/$it.rlib" ] && [ ! -e "$made/stamp" ] || return 1
        younger=$(find crates.txt "crates/$it" -name out -prune -o -name must-fail -prune -o -newer "$made/$it.rlib" -print)
        [ -z "$younger" ] || return 1
        set -- "$@" -L "dependency=$made"
    done
    for it in $(listed "$crate"); do set -- "$@" --extern "$it=crates/$it/out/rlib/$it.rlib"; done
    mkdir -p "crates/$crate/out"
    "$kit/bin/rattle" build --crate-name "$crate" --crate-type staticlib --target "$target" "$@" --jobs 2 \
        --antt-project "$kit/rattle/logic/antt-project.json" --logic-built "$kit/logic_built" \
        --toolchain "$kit/toolchain" -o "crates/$crate/out/lib$crate.a" "crates/$crate/src/lib.rt"
}

[ $# -gt 0 ] || set -- $(sed -n 's/^\([a-z_]*\)_c staticlib *:.*/\1/p' crates.txt)
for name in "$@"; do
    over_ci "${name}_c" || (cd "crates/${name}_c" && rt lib --target "$target")
    cp "crates/${name}_c/out/lib${name}_c.a" "$folder/lib$name.a"
done
