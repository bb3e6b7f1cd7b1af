#!/bin/sh
# Seconds and peak memory of judge on deliveries of 20,000 and 200,000 objects, and how much more the larger one takes.
# bench/run.sh --links has ducts that hold cables, and networks that hold pipes.

here=$(dirname -- "$(readlink -f -- "$0")")
. "$here/measure.sh"

# Judges a delivery of so many objects.
judge() {
    objects=$1
    shift
    python3 "$here/generate.py" "$objects" "$@" >"$room/delivery.json" || fail "no delivery was written"
    measure "$room/$objects" "$program" judge \
        "$root/examples/catalogue.json" "$room/delivery.json" "$root/examples/min-depth.code" >"$room/report"
    status=$?
    # (1 says only that some objects lie too shallow)
    [ "$status" -le 1 ] || fail "judge ended with status $status: $(head -n 1 "$room/report")"
    read -r seconds memory <"$room/$objects"
    awk -v n="$objects" -v s="$seconds" -v m="$memory" -v r="$(tail -n 1 "$room/report")" \
        'BEGIN { printf "%7d objects: %7.2f s, %8.1f MiB, %s\n", n, s, m / 1024, r }'
}

judge 20000 "$@"
judge 200000 "$@"
awk 'NR == 1 { s = $1; m = $2 }
     NR == 2 { printf "10 times the objects: %.1f times the seconds, %.1f times the memory (n log n: %.1f)\n",
               $1 / (s > 0 ? s : 0.01), $2 / m, 10 * log(200000) / log(20000) }' "$room/20000" "$room/200000"
