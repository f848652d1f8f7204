#!/bin/bash
# Builds the benchmark with the stock C++ compiler and runs it. It wants the static library (rt lib in crates/c_calls) and the
# program report (rt run in crates/report), and makes them where they are missing.
#   bench/run.sh [SEEDS]     SEEDS orders of each kind (default 3)
set -euo pipefail
cd "$(dirname "$0")/.."
mkdir -p target
[ -f crates/c_calls/out/libc_calls.a ] || (cd crates/c_calls && rt lib) >/dev/null
[ -f crates/report/out/report ] || (cd crates/report && rt run) >/dev/null
kit=$(dirname "$(rt doc)")
g++ -O2 -std=c++17 -Wall -o target/plain_report bench/plain_report.cpp
g++ -O2 -std=c++17 -Wall -o target/bench bench/bench.cpp crates/c_calls/out/libc_calls.a "$kit/c/liblibc_c.a"
target/bench "$@"
