# Read by the scripts that time a part by itself. `built CRATE MODULE ..` prints the path of a program that stands in the place of
# that of CRATE: the caller's `write_program FILE` writes its main.rt, and the modules that it does not need are left out. A crate
# that crates.txt does not have uses the crates of `$uses`. It is built outside the checkout, beside copies of the crates that it
# stands on, and proved like they are, which takes some minutes; it is kept for as long as they stay the same.
crates_below() {
    python3 - "$top/crates.txt" "$1" ${uses:-} <<'BELOW'
import sys
uses = {sys.argv[2]: sys.argv[3:]}
for line in open(sys.argv[1], encoding="utf-8"):
    name, colon, rest = line.partition(":")
    if colon and not line.startswith("#"):
        uses[name.strip()] = rest.split()
found = []
def add(name):
    if name in uses and name not in found:
        for below in uses[name]:
            add(below)
        found.append(name)
add(sys.argv[2])
print(*found)
BELOW
}

sources_of() {
    for crate in $1; do
        [ ! -d "$top/crates/$crate" ] || find "$top/crates/$crate" -name out -prune -o -type f \( -name '*.rt' -o -name '*.antt' \) -print0
    done | sort -z | xargs -0 cat "$0" "$top/bench/built.sh" | sha256sum | cut -c1-16
}

copy_crates() {
    mkdir -p "$2/crates"
    for crate in $1; do
        grep "^$crate:" "$top/crates.txt" >>"$2/crates.txt" || echo "$crate: ${uses:-}" >>"$2/crates.txt"
        mkdir -p "$2/crates/$crate/src"
        for part in src specs proofs; do
            [ ! -d "$top/crates/$crate/$part" ] || cp -r "$top/crates/$crate/$part/." "$2/crates/$crate/$part"
        done
    done
}

built() {
    crate_built=$1
    shift
    needed=$(crates_below "$crate_built")
    folder=${XDG_CACHE_HOME:-$HOME/.cache}/eonplan-bench/$crate_built-$(sources_of "$needed")
    program=$folder/crates/$crate_built/out/$crate_built
    if [ ! -x "$program" ]; then
        rm -rf "${folder%/*}/$crate_built"-*
        copy_crates "$needed" "$folder"
        for module in "$@"; do
            rm "$folder/crates/$crate_built/src/$module"
        done
        write_program "$folder/crates/$crate_built/src/main.rt"
        echo "${0##*/}: building (messages go to $folder/build.log)" >&2
        (cd "$folder/crates/$crate_built" && rt run </dev/null) >"$folder/build.log" 2>&1 || {
            tail -n 20 "$folder/build.log" >&2
            return 1
        }
    fi
    echo "$program"
}
