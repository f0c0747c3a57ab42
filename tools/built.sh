# What ./perm and ./build share: the crates that the program stands on, and whether it is built of the sources that stand
# here. Sourced with the repository's folder in $top.
program=$top/crates/perm_cli/out/perm_cli
# The sum of the logic that the proofs are written in; any kit of it serves, whatever its number.
logic=dac8208d650f15bf

# crates_below NAME: the crate behind those of this repository that it uses
crates_below() {
    awk -F: -v top="$1" '
        function add(name, names, i) {
            if (!(name in uses) || added[name]++) return
            for (i = split(uses[name], names, " "); i > 0; i--) add(names[i])
            print name
        }
        !/^#/ { split($1, words, " "); uses[words[1]] = $2 }
        END { add(top) }' "$top/crates.txt"
}

crates=($(crates_below perm_cli))

# is_built: no source is newer than the program, which has the time at which its build began
is_built() {
    [ -x "$program" ] &&
        [ -z "$(find "$top/crates.txt" "$top/HANDLES" "${crates[@]/#/$top/crates/}" -name out -prune -o -type f ! -name README.md -newer "$program" -print -quit)" ]
}
