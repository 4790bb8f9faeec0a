# What the benches share; to be read by `.`, not run.
#
# begin NAME.. makes the folder $work, which goes when the bench ends: a small repository with the crates of these names that stand
# here, those beneath them (found by crates.txt), and the row, the specs and the proofs of a program `measure` over the names, some
# of which may be libraries of the toolchain. Its text goes to $work/crates/measure/src/main.rt. A library that was proved here
# before is taken as it is. $top is the top of this repository.
begin() {
    top=$(cd "$(dirname "${BASH_SOURCE[0]}")/.." && pwd)
    work=$(mktemp -d)
    trap 'rm -rf "$work"' EXIT
    mkdir -p "$work/crates/measure/src" "$work/crates/measure/specs" "$work/crates/measure/proofs"
    : > "$work/crates/measure/specs/Lib.antt"
    : > "$work/crates/measure/proofs/Lib.antt"
    cp "$top/HANDLES" "$work/HANDLES"
    echo "measure: $*" > "$work/crates.txt"
    local waiting="$*" crate row part
    while [ -n "$waiting" ]; do
        read -r crate waiting <<< "$waiting"
        grep -q "^$crate:" "$work/crates.txt" && continue
        row=$(grep "^$crate:" "$top/crates.txt") || continue
        echo "$row" >> "$work/crates.txt"
        for part in src specs proofs; do
            mkdir -p "$work/crates/$crate/$part"
            cp -r "$top/crates/$crate/$part/." "$work/crates/$crate/$part"
        done
        if [ -d "$top/crates/$crate/out/rlib" ]; then
            mkdir -p "$work/crates/$crate/out"
            cp -r "$top/crates/$crate/out/rlib" "$work/crates/$crate/out/rlib"
        fi
        waiting="${row#*:} $waiting"
    done
}
