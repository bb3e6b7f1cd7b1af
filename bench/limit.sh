#!/bin/sh
# Judges a delivery of one object more than there may be: the last, in place 1,000,000, is refused with population fault 10.

here=$(dirname -- "$(readlink -f -- "$0")")
. "$here/measure.sh"
more='{"id":"one.more","class":"Waterleiding","features":{"identificatie":"one more","diameter":64}}'
python3 "$here/generate.py" 1000000 | sed "\$ s/]}\$/,$more]}/" >"$room/delivery.json" || fail "no delivery was written"
said=$("$program" judge "$root/examples/catalogue.json" "$room/delivery.json" "$root/examples/min-depth.code")
echo "$said"
[ "$said" = "refused delivery 7 1000000 10" ]
