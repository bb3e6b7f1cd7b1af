#!/bin/sh
# Seconds and peak memory of judge without a rule on deliveries of 20,000 and 200,000 objects that hold one another, beside those of the
# floor: the program bench_json, which makes the tree of the same JSON and drops it. The best of three runs counts.

here=$(dirname -- "$(readlink -f -- "$0")")
. "$here/measure.sh"
: >"$room/none.rules"

# The first run builds the floor; what is measured is the program alone.
(cd "$root/crates/bench_json" && rt run -- "$root/examples/cable-600.json") </dev/null >"$room/said" 2>&1 || {
    cat "$room/said" >&2
    fail "the floor isn't built"
}
floor=$root/crates/bench_json/out/bench_json

# Runs a command three times, and keeps the least seconds, with their memory.
least() {
    kept=$1
    shift
    for run in 1 2 3; do
        measure "$room/$kept.$run" "$@" >"$room/said" || fail "$1 ended with status $?: $(head -n 1 "$room/said")"
    done
    cat "$room/$kept".[1-3] | sort -n | head -n 1 >"$room/$kept"
}

for objects in 20000 200000; do
    python3 "$here/generate.py" "$objects" --links >"$room/delivery.json" || fail "no delivery was written"
    least floor "$floor" "$room/delivery.json"
    least judge "$program" judge --text "$root/examples/catalogue.json" "$room/delivery.json" "$room/none.rules"
    awk -v objects="$objects" \
        'NR == 1 { seconds = $1; memory = $2 }
         NR == 2 { printf "%7d objects: floor %.2f s, %.1f MiB; judge %.2f s, %.1f MiB: %.2f times the seconds, %.2f times the memory\n",
                   objects, seconds, memory / 1024, $1, $2 / 1024, $1 / (seconds > 0 ? seconds : 0.01), $2 / memory }' \
        "$room/floor" "$room/judge"
done
