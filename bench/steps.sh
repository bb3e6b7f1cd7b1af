#!/bin/sh
# Nanoseconds a step of judge, on a delivery of 200,000 objects that hold one another: of four rules with iterations, each ten times, and of
# a rule of four instructions, two hundred times. What reading takes is measured by a code file without rules, and taken off; of each the
# best of three runs counts.

here=$(dirname -- "$(readlink -f -- "$0")")
. "$here/measure.sh"

objects=200000
python3 "$here/generate.py" "$objects" --links >"$room/delivery.json" || fail "no delivery was written"

# Judges by the code file that iterations.py writes, and keeps the least seconds.
judge() {
    kept=$1
    shift
    python3 "$here/iterations.py" "$objects" "$room/rules.code" "$@" >"$room/steps" || fail "no code file was written"
    for run in 1 2 3; do
        measure "$room/$kept.$run" "$program" judge \
            "$root/examples/catalogue.json" "$room/delivery.json" "$room/rules.code" >"$room/report"
        status=$?
        [ "$status" -le 1 ] || fail "judge ended with status $status: $(head -n 1 "$room/report")"
    done
    cat "$room/$kept".[1-3] | sort -n | head -n 1 >"$room/$kept"
}

# Says what the steps of the code file took that was judged last.
report() {
    awk -v objects="$objects" -v steps="$(cat "$room/steps")" -v rules="$1" \
        'NR == 1 { reading = $1 }
         NR == 2 { printf "%s, %d objects, %d steps: %.2f s, of which reading %.2f s, %.1f MiB, %.1f ns a step\n",
                   rules, objects, steps, $1, reading, $2 / 1024, ($1 - reading) * 1e9 / steps }' "$room/reading" "$room/whole"
}

judge reading --none
judge whole
report iterations
judge whole --short
report "four instructions"
