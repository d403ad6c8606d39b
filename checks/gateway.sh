#!/bin/sh
# Builds the client in examples/ with the library for C, runs it on the sample files and holds what it prints to
# examples/expected.txt; then once more under valgrind, where there is one. Run by hand, from anywhere.
set -eu
cd "$(dirname "$0")/.."

(cd crates/gateway && rt lib >/dev/null)
work=$(mktemp -d)
trap 'rm -rf "$work"' EXIT
gcc -std=c99 -Wall -Wextra -Werror -Iinclude -o "$work/gateway" examples/gateway.c crates/gateway/out/libgateway.a

# the samples, and with them a frame that is cut off, one with another encoding, and no bytes
cp examples/data/*.bin "$work"
head -c 20 examples/data/establish.bin >"$work/cut.bin"
{ head -c 2 examples/data/establish.bin; printf '\000\000'; tail -c +5 examples/data/establish.bin; } >"$work/encoding.bin"
: >"$work/empty.bin"

# runs the client with these words, under the tool if there is one
run() {
    echo "gateway $*"
    status=0
    (cd "$work" && $tool ./gateway "$@") || status=$?
    echo "ends with $status"
}

runs() {
    run guide.bin establish.bin 35518 35520 35003 35512 22
    run guide.bin simple-new-order.bin 35518 35505 1 35503 54 35487 44 35508 5149 552/0/54 0/1/54 99
    run guide.bin cut.bin
    run guide.bin encoding.bin
    run guide.bin empty.bin
    run establish.bin establish.bin
    run empty.bin establish.bin
}

tool=
runs >"$work/printed.txt"
diff examples/expected.txt "$work/printed.txt"
echo "gateway: as expected"

if command -v valgrind >/dev/null; then
    tool="valgrind --quiet --error-exitcode=99 --leak-check=full"
    runs >"$work/printed.txt"
    diff examples/expected.txt "$work/printed.txt"
    echo "gateway: as expected under valgrind"
fi
