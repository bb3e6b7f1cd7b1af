#!/bin/sh
# Seconds and peak memory of verify with code files at their limits.

here=$(dirname -- "$(readlink -f -- "$0")")
. "$here/measure.sh"

for shape in long many deep; do
    python3 "$here/code.py" "$shape" "$room/rules.code" || fail "no code file was written"
    measure "$room/measured" "$program" verify "$root/examples/catalogue.json" "$room/rules.code" >"$room/said" \
        || fail "verify refused the code: $(cat "$room/said")"
    read -r seconds memory <"$room/measured"
    awk -v shape="$shape" -v s="$seconds" -v m="$memory" -v r="$(cat "$room/said")" \
        'BEGIN { printf "%s: %6.2f s, %7.1f MiB, %s\n", shape, s, m / 1024, r }'
done
