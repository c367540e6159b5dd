#!/usr/bin/env bash
# Builds the proved function and the benchmark beside it, and runs both in one process.
# usage, in the project's root:  bench/judging.sh
set -eu
cd "$(dirname "$0")/.."
mkdir -p target
bash scripts/staticlib judge_c > target/judging.log 2>&1 || { tail -5 target/judging.log; exit 1; }
rustc --edition 2021 -C opt-level=3 -L target/staticlib bench/judging.rs -o target/judging
target/judging
