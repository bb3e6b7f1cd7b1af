#!/bin/sh
# Seconds of judge where a rule asks a text of 1 MB 4,000 times for its length or for a part of it, or compares it with itself.
# The text has one byte a character (letters), or one longer character at its end.

here=$(dirname -- "$(readlink -f -- "$0")")
. "$here/measure.sh"

# Writes a delivery of a duct that holds 4,000 cables, and has a text of 1 MB that ends so.
write() {
    awk -v end="$1" 'BEGIN {
        printf "{\"model\":\"imkl-profile\",\"objects\":[\n{\"id\":\"M1\",\"class\":\"Mantelbuis\",\"features\":{\"diameter\":110,\"identificatie\":\""
        for (at = 0; at < 100000; at++) printf "abcdefghij"
        printf "%s\",\"omvat\":[", end
        for (at = 0; at < 4000; at++) printf "%s\"E%d\"", at ? "," : "", at
        printf "]}}"
        for (at = 0; at < 4000; at++) printf ",\n{\"id\":\"E%d\",\"class\":\"Elektriciteitskabel\",\"features\":{\"identificatie\":\"e%d\",\"spanning\":400}}", at, at
        print "]}"
    }' >"$room/delivery.json"
}

# Judges by a condition on each cable.
judge() {
    echo "context Mantelbuis inv long: self.omvat->forAll(k | k <> null and $2)" >"$room/rules"
    measure "$room/measured" "$program" judge --text "$root/examples/catalogue.json" "$room/delivery.json" "$room/rules" >"$room/report"
    [ "$?" -le 1 ] || fail "judge was refused: $(head -n 1 "$room/report")"
    read -r seconds memory <"$room/measured"
    printf '%s, %s: %s s, %s\n' "$1" "$2" "$seconds" "$(tail -n 1 "$room/report")"
}

for end in '' 'é'; do
    write "$end"
    judge "${end:-letters}" "self.identificatie.size() > 1"
    judge "${end:-letters}" "self.identificatie.substring(999999, 1000000).size() = 2"
    judge "${end:-letters}" "self.identificatie.substring(1, 2).size() = 2"
    judge "${end:-letters}" "self.identificatie = self.identificatie"
done
