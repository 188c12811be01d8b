#!/bin/sh
# Measures the proved checksum beside a plain loop over one table, both on one random input of 1 MiB, many times over.
# Prints both rates and their ratio; fails where the two checksums differ. Usage: bench/checksum.sh [ROUNDS]
set -eu
cd "$(dirname "$0")/.."
rounds=${1:-2000}
out=target/bench
mkdir -p "$out"

(cd crates/crc_bench && rt run) >"$out/rt.log" 2>&1 || { cat "$out/rt.log"; exit 1; }
rustc -O -o "$out/plain_crc" bench/plain_crc.rs
head -c 1048576 /dev/urandom >"$out/input"

# each program prints "CHECKSUM RATE MB/s"
plain=$("$out/plain_crc" "$out/input" "$rounds")
proved=$(crates/crc_bench/out/crc_bench "$out/input" "$rounds")
echo "plain table, rustc -O:  $plain"
echo "proved, eight tables:   $proved"

if [ "${plain%% *}" != "${proved%% *}" ]; then
    echo "the checksums differ"
    exit 1
fi
echo "$plain $proved" | awk '{ printf "ratio: %.1f\n", $5 / $2 }'
