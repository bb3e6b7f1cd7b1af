#!/bin/sh
# How processor time and peak memory grow from 1,000 to 1,000,000 objects: deliveries without and with links that are only
# loaded, and those with links judged by the fifteen rules of bench/judging.rules and by rules with iterations. Prints a table
# and draws it into docs/growth.svg.

here=$(dirname -- "$(readlink -f -- "$0")")
. "$here/measure.sh"
python3 "$here/growth.py" "$program" "$root" "$room"
