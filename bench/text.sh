#!/bin/sh
# Fifteen rules of text on deliveries of 20,000 and 200,000 objects that hold one another: seconds, peak memory, nanoseconds a judgement
# (of a rule for an object), and how much of the time is loading, measured by a text without rules. The best of three runs counts.

here=$(dirname -- "$(readlink -f -- "$0")")
. "$here/measure.sh"
: >"$room/none.rules"

# Judges a delivery by a text, and keeps the least seconds.
judge() {
    kept=$1 rules=$2
    for run in 1 2 3; do
        measure "$room/$kept.$run" "$program" judge --text \
            "$root/examples/catalogue.json" "$room/delivery.json" "$rules" >"$room/report"
        status=$?
        [ "$status" -le 1 ] || fail "judge ended with status $status: $(head -n 1 "$room/report")"
    done
    cat "$room/$kept".[1-3] | sort -n | head -n 1 >"$room/$kept"
}

for objects in 20000 200000; do
    python3 "$here/generate.py" "$objects" --links >"$room/delivery.json" || fail "no delivery was written"
    judge loading "$room/none.rules"
    judge whole "$here/judging.rules"
    judgements=$(awk '$1 == "rule" { sum += $4 } END { print sum }' "$room/report")
    awk -v objects="$objects" -v judgements="$judgements" \
        'NR == 1 { loading = $1 }
         NR == 2 { printf "%d objects, %d judgements: %.2f s, of which loading %.2f s (%.0f %%), %.1f MiB, %.0f ns a judgement\n",
                   objects, judgements, $1, loading, 100 * loading / ($1 > 0 ? $1 : 0.01), $2 / 1024, ($1 - loading) * 1e9 / judgements }' \
        "$room/loading" "$room/whole"
done
