#!/bin/sh
# Each circuit of the folder `circuits` by `trip`, in the folder `out` beside this script: its lines are compared with
# those of `plain`. Then its net is folded and run over the same files: the outputs have to be the same byte for byte. It
# ends with a table: circuit, jobs, jobs of the folded net, jobs saved, depth, seconds of the trip and of the run with the
# folded net. The program is that of `run.sh`.
set -eu
here=$(cd "$(dirname "$0")" && pwd)
program="$here/../crates/rxint"
[ -x "$program/out/rxint" ] || (cd "$program" && rt run -- check rx-test)
mkdir -p "$here/out"
cd "$here/out"
rxint="$program/out/rxint"
zeros=0000000000000000000000000000000000000000000000000000000000000000
ones=1111111111111111111111111111111111111111111111111111111111111111
"$rxint" client rx-test $zeros client
rm -f table
for values in "$here"/circuits/*.values; do
    circuit="${values%.values}"
    name=$(basename "$circuit")
    start=$(date +%s)
    "$rxint" trip client $ones $zeros $ones "$circuit" "$values" 2 "$name" > "$name.given"
    middle=$(date +%s)
    "$rxint" plain "$circuit" "$values" > "$name.wanted"
    cmp "$name.wanted" "$name.given"
    size=$("$rxint" compile "$circuit" "$name.net")
    folded=$("$rxint" fold "$name.net" "$name.folded")
    begin=$(date +%s)
    "$rxint" run "$name.server" "$name.folded" 2 "$name.again" "$name.inputs" > "$name.jobs"
    end=$(date +%s)
    cmp "$name.outputs" "$name.again"
    echo "$name $size $folded $((middle - start)) $((end - begin))" >> table
done
awk '{ printf "%-10s %6s %6s %6s %6s %6s %6s\n", $1, $3, $7, $3 - $7, $5, $10, $11 }
    BEGIN { printf "%-10s %6s %6s %6s %6s %6s %6s\n", "circuit", "jobs", "folded", "saved", "depth", "trip s", "run s" }' table
