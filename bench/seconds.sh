# Read by the scripts that time short runs. `seconds WORDS ..` prints the least processor seconds of five runs of these words; what the last
# one printed is in $work/out.
seconds() {
    local TIMEFORMAT='%U %S'
    for _ in 1 2 3 4 5; do
        { time "$@" >"$work/out"; } 2>&1
    done | awk '{ print $1 + $2 }' | sort -n | head -1
}
