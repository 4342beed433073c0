#!/bin/sh
# The whole way, in the folder `out` beside this script: a client and a server key, the circuit `circuits/tax` compiled
# to a net and that net folded, its inputs encrypted, the folded net evaluated over them by the server key alone, and the
# outputs read by the client. It tells how many jobs the fold saves. What is read is compared with what `plain` computes
# of the circuit in the clear. The first run proves and builds the program, which takes some minutes.
set -eu
here=$(cd "$(dirname "$0")" && pwd)
program="$here/../crates/rxint"
[ -x "$program/out/rxint" ] || (cd "$program" && rt run -- check rx-test)
mkdir -p "$here/out"
cd "$here/out"
rxint="$program/out/rxint"
circuit="$here/circuits/tax"
client_seed=0000000000000000000000000000000000000000000000000000000000000000
key_seed=1111111111111111111111111111111111111111111111111111111111111111
mask_seed=2222222222222222222222222222222222222222222222222222222222222222
noise_seed=3333333333333333333333333333333333333333333333333333333333333333
"$rxint" client rx-test $client_seed client
"$rxint" keygen client $key_seed server
"$rxint" compile "$circuit" compiled > compiled.size
"$rxint" fold compiled net > net.size
cat compiled.size net.size | awk '{ jobs[NR] = $2 } END { print jobs[1] " jobs, folded " jobs[2] ": " jobs[1] - jobs[2] " saved" }'
"$rxint" encrypt client $mask_seed $noise_seed "$circuit.values" inputs
"$rxint" run server net 1 outputs inputs
ls -l client server compiled net inputs outputs
"$rxint" plain "$circuit" "$circuit.values" > wanted
"$rxint" decrypt client outputs | tee given
cmp wanted given
