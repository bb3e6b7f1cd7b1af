#!/bin/sh
# Judges a folder of 1,000 deliveries with 1, 2 and 4 processes, each delivery by a process of its own, and prints deliveries
# a second: examples/many.sh [OBJECTS], where each delivery has so many objects (200).

here=$(dirname -- "$(readlink -f -- "$0")")
. "$here/../bench/measure.sh"
objects=${1:-200}
mkdir "$room/in"
for number in $(seq 1000); do
    # (a few kinds of deliveries are enough: each is read and judged for itself)
    size=$((objects + number % 10))
    [ -f "$room/$size" ] || python3 "$root/bench/generate.py" "$size" --links >"$room/$size" || fail "no delivery was written"
    cp "$room/$size" "$room/in/$number.json"
done
"$program" compile "$here/catalogue.json" "$here/network.rules" "$room/rules.code" >/dev/null || fail "the rules aren't compiled"

# What docs/use/many-deliveries.md shows: a report and a status for each delivery.
judge_one='"$0" judge "$1" "$3" "$2" >"$4/$(basename "$3" .json).report"; echo "$?" >"$4/$(basename "$3" .json).status"'

for processes in 1 2 4; do
    rm -rf "$room/out" && mkdir "$room/out"
    ls "$room"/in/*.json >"$room/list"
    measure "$room/time" xargs -a "$room/list" -P "$processes" -I '{}' \
        sh -c "$judge_one" "$program" "$here/catalogue.json" "$room/rules.code" '{}' "$room/out"
    [ "$(cat "$room"/out/*.status | grep -cx '[01]')" = 1000 ] || fail "not every delivery was judged"
    read -r seconds memory <"$room/time"
    awk -v n="$processes" -v s="$seconds" 'BEGIN { printf "%d processes: %.2f s, %d deliveries a second\n", n, s, 1000 / s }'
done
