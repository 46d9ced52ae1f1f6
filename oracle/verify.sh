#!/bin/sh
# Builds, tests, answers all vectors to the byte, and shows that each mistake is caught.
# Usage: verify.sh [FOLDER OF VECTORS]
set -eu
cd "$(dirname "$0")"
vectors=${1:-../tests/vectors}
work=$(mktemp -d)
trap 'rm -r "$work"' EXIT

cargo build --release
cargo test --quiet
oracle=target/release/oracle

for input in "$vectors"/station-*.in.gz; do
    gzip -dc "$input" | $oracle station | cmp - "${input%.in.gz}.out"
    echo "$(basename "$input"): equal"
done
for input in "$vectors"/raw-*.in.gz; do
    gzip -dc "${input%.in.gz}.out.gz" > "$work/expected"
    gzip -dc "$input" | $oracle raw | cmp - "$work/expected"
    echo "$(basename "$input"): equal"
done

$oracle wrong
echo "every mistake is caught"
