#!/usr/bin/env bash
# Compares the implementation here with the second one in compare/, on inputs from a seed: through static libraries, and
# by what the programs print. Takes the number of inputs for each call (a fiftieth of it for the programs) and the seed;
# ends with a status other than 0 on any difference. It works on a copy of the committed repository. Needs cargo. Run from
# the repository's root.
set -eu
count=${1:-20000}
seed=${2:-1}
. "$(dirname "$0")/copy.sh"
guide="examples/guide/dictionary.bin crates/dictionary_cases/data/guide-v4.bin crates/dictionary_cases/data/guide-v5.bin"

built listing editions
archived gateway compared
mkdir -p programs archives
cp crates/listing/out/listing crates/editions/out/editions programs/
cp crates/gateway/out/libgateway.a crates/compared/out/libcompared.a archives/
export STATICLIB="$PWD/archives"
(cd compare && cargo test --quiet --offline && cargo build --quiet --release --offline --features gateway,compared)
compare/target/release/alone "$seed" "$count" >/dev/null
compare/target/release/compare-gateway "$seed" "$count" $guide
compare/target/release/compare-programs "$seed" $((count / 50)) programs $guide
compare/target/release/compare-forms "$seed" "$count" $guide
echo "compare: no difference"
