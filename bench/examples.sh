#!/bin/sh
# Searches deliveries for each verdict of forty rules: those of the example, and those of profile.rules. Prints the seconds on
# one core, the peak memory, and how many of each verdict were found.
here=$(cd "$(dirname "$0")" && pwd)
. "$here/measure.sh"
explain=${OCL_EXPLAIN-$root/out/built/ocl_explain}
[ -x "$explain" ] || fail "$explain isn't built: ./ocl_explain --version builds it"
cat "$root/examples/network.rules" "$here/profile.rules" >"$room/forty.rules"
measure "$room/time" taskset -c 0 "$explain" examples "$root/examples/catalogue.json" "$room/forty.rules" >"$room/found" 2>"$room/said" ||
    fail "ocl_explain: $(cat "$room/said")"
read -r seconds memory <"$room/time"
echo "$(grep -c 'inv ' "$room/forty.rules") rules: $seconds s, $((memory / 1024)) MiB"
for verdict in holds fails undecided; do
    echo "$verdict: $(grep -c "^[A-Za-z0-9_]* $verdict [A-Z][0-9]*\$" "$room/found") found"
done
grep 'none found' "$room/found"
# what is searched for longer
for verdict in holds fails; do
    measure "$room/time" taskset -c 0 "$explain" examples --tries 60000 --verdict $verdict "$root/examples/catalogue.json" "$room/forty.rules" \
        >"$room/found" 2>"$room/said" || fail "ocl_explain: $(cat "$room/said")"
    read -r seconds memory <"$room/time"
    echo "$verdict, in 60,000 tries: $(grep -c "^[A-Za-z0-9_]* $verdict [A-Z][0-9]*\$" "$room/found") found in $seconds s"
done
exit 0
