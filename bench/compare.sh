#!/usr/bin/env bash
# Builds the proved bench and the same loop in Rust, runs both in turn, and prints the best user time of each and their ratio.
# Usage: bench/compare.sh [STEPS] [ROUNDS]
set -euo pipefail
cd "$(dirname "$0")/.."
steps=${1:-100000000}
rounds=${2:-5}
(cd crates/bench && rt run -- 1 <stdin >/dev/null)
mkdir -p target/bench
rustc --edition 2024 -O -o target/bench/plain bench/plain.rs
TIMEFORMAT=%U
timed() { # user seconds that a program takes; its checksum goes to the file $2
    { time "$1" "$steps" <crates/bench/stdin >"$2"; } 2>&1
}
best() { # the smaller of two times, of which the first may be missing
    awk -v a="$1" -v b="$2" 'BEGIN { print (a == "" || b + 0 < a + 0) ? b : a }'
}
rattle='' rust=''
for _ in $(seq "$rounds"); do
    rattle=$(best "$rattle" "$(timed crates/bench/out/bench target/bench/rattle.sum)")
    rust=$(best "$rust" "$(timed target/bench/plain target/bench/rust.sum)")
done
cmp target/bench/rattle.sum target/bench/rust.sum
echo "checksum $(cat target/bench/rust.sum) after $steps steps"
awk -v a="$rattle" -v b="$rust" 'BEGIN { printf "rattle %.3f s, rust %.3f s, ratio rattle/rust %.2f\n", a, b, a / b }'
