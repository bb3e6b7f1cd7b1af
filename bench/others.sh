#!/bin/sh
# The fifteen rules of bench/judging.rules on deliveries of 20,000 and 200,000 objects that hold one another, judged by ocl_check
# and by what one would write by hand instead (bench/others/): a Rust program, a Python script, a jq program, SQL in sqlite3. All
# must print the same report. Seconds and peak memory, the best of three runs, one after the other in turns. What isn't installed
# is left out. Last, what judging alone takes of ocl_check (what reading without rules takes is taken off) and of the Rust program, the
# least of nine runs in turns.

here=$(dirname -- "$(readlink -f -- "$0")")
. "$here/measure.sh"
delivery=$room/delivery.json
"$program" compile "$root/examples/catalogue.json" "$here/judging.rules" "$room/judging.code" >"$room/said" || fail "$(cat "$room/said")"

tools="ocl_check python3 jq sqlite3"
if command -v rustc >/dev/null 2>&1; then
    rustc --edition 2021 -O -o "$room/rust" "$here/others/judging.rs" || fail "the Rust program can't be built"
    tools="ocl_check $room/rust python3 jq sqlite3"
fi
: >"$room/none.rules"
"$program" compile "$root/examples/catalogue.json" "$room/none.rules" "$room/none.code" >"$room/said" || fail "$(cat "$room/said")"

judge_by() {
    case $1 in
        "$room/rust") set -- "$room/rust" "$delivery" ;;
        ocl_check) set -- "$program" judge "$root/examples/catalogue.json" "$delivery" "$room/judging.code" ;;
        python3) set -- python3 "$here/others/judging.py" "$delivery" ;;
        jq) set -- jq -r -f "$here/others/judging.jq" "$delivery" ;;
        sqlite3) set -- sqlite3 :memory: ".param set :delivery $delivery" ".read $here/others/judging.sql" ;;
    esac
    measure "$to" "$@" >"$report"
}

for objects in 20000 200000; do
    python3 "$here/generate.py" "$objects" --links >"$delivery" || fail "no delivery was written"
    for run in 1 2 3; do
        for tool in $tools; do
            command -v "$tool" >/dev/null 2>&1 || [ "$tool" = ocl_check ] || continue
            to=$room/$(basename "$tool").time.$run report=$room/$(basename "$tool").report
            judge_by "$tool" 2>"$room/$(basename "$tool").said.$run"
            cmp -s "$room/ocl_check.report" "$report" || fail "$tool prints another report: $(head -n 1 "$report")"
        done
    done
    for tool in $tools; do
        tool=$(basename "$tool")
        [ -f "$room/$tool.time.1" ] || continue
        sort -n "$room/$tool".time.[1-3] | head -n 1 >"$room/$tool.best"
        awk -v n="$objects" -v tool="$tool" '{ printf "%7d objects, %-9s %7.2f s, %8.1f MiB\n", n, tool, $1, $2 / 1024 }' "$room/$tool.best"
    done
    [ -f "$room/rust.best" ] || continue
    for run in 1 2 3 4 5 6 7 8 9; do
        measure "$room/none.turn.$run" "$program" judge "$root/examples/catalogue.json" "$delivery" "$room/none.code" >"$room/report"
        measure "$room/judge.turn.$run" "$program" judge "$root/examples/catalogue.json" "$delivery" "$room/judging.code" >"$room/report"
        "$room/rust" "$delivery" 2>"$room/rust.turn.$run" >"$room/report"
    done
    for what in none judge; do sort -n "$room/$what".turn.[1-9] | head -n 1 >"$room/$what.best"; done
    rust=$(sed 's/.*judging \(.*\) s/\1/' "$room"/rust.turn.[1-9] | sort -n | head -n 1)
    awk -v n="$objects" -v rust="$rust" 'NR == 1 { loading = $1 } NR == 2 { printf "%7d objects, judging alone: ocl_check %.2f s, rust %.2f s, ratio %.2f\n",
        n, $1 - loading, rust, ($1 - loading) / rust }' "$room/none.best" "$room/judge.best"
done
