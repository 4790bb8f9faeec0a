#!/usr/bin/env bash
# Measures what proving takes, from nothing, of two commits: bench/gate.sh gate OLD NEW runs the gates of both side by side, each on two
# processors of its own; bench/gate.sh first OLD NEW builds the program by ./aql, one commit after the other, on all processors. Nothing
# else may run. Prints for each the time on the clock, processor minutes, and for a first build the disk at the peak; logs stay in the folder
# that it names. What earlier runs kept beside the toolchain counts for nothing: it is moved aside for the while.
set -eu
cd "$(dirname "$0")/.." || exit 1
[ $# = 3 ] || { sed -n '2,6p' "$0" >&2; exit 2; }
what=$1 old=$2 new=$3
work=$(mktemp -d)
kept=$(dirname "$(dirname "$(rt doc)")")/rattle-kept
echo "logs in $work"

clone() {
    git clone -q . "$work/$1" && git -C "$work/$1" checkout -q "$2"
}
clone old "$old"
clone new "$new"
[ ! -d "$kept" ] || mv "$kept" "$kept.aside"
trap '[ ! -d "$kept.aside" ] || { rm -rf "$kept"; mv "$kept.aside" "$kept"; }' EXIT

minutes() {
    awk -v name="$1" '/Elapsed/ { clock = $NF } /User time/ { user = $NF } /System time/ { system = $NF }
        END { printf "%s: %s on the clock, %.1f processor minutes\n", name, clock, (user + system) / 60 }' "$work/$1.log"
}

if [ "$what" = gate ]; then
    side() {
        local jobs=()
        ! grep -q RT_JOBS "$work/$1/.ci/run" || jobs=(RT_JOBS=2)
        (cd "$work/$1" && env "${jobs[@]}" taskset -c "$2" /usr/bin/time -v rt ci --anew) > "$work/$1.log" 2>&1 || echo "$1: the gate failed" >&2
    }
    side old 0,1 &
    side new 2,3 &
    wait
    for side in old new; do
        minutes "$side"
        tail -n 60 "$work/$side.log" | grep -E '^[0-9]+ passed' || true
    done
else
    for side in old new; do
        rm -rf "$kept"
        (cd "$work/$side" && /usr/bin/time -v ./aql < examples/first.aql) > "$work/$side.log" 2>&1 &
        job=$! peak=0
        while kill -0 "$job" 2>/dev/null; do
            disk=$(du -scm "$work/$side" "$kept" "${TMPDIR:-/tmp}"/aql-build-* 2>/dev/null | tail -n 1 | cut -f 1)
            [ "$disk" -le "$peak" ] || peak=$disk
            sleep 5
        done
        wait "$job" || echo "$side: the build failed" >&2
        minutes "$side"
        echo "$side: $peak MB of disk at the peak"
        rm -rf "$work/$side"/crates/*/out
    done
fi
