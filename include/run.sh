#!/bin/bash
# Builds the static library and the C example with the stock C compiler, and runs it. Ends with status 1 where the example does.
set -euo pipefail
cd "$(dirname "$0")/.."
mkdir -p target
(cd crates/c_calls && rt lib) >target/staticlib.log 2>&1 || { cat target/staticlib.log; exit 1; }
kit=$(dirname "$(rt doc)")
cc -O2 -Wall -Wextra -Werror -Iinclude -o target/example include/example.c crates/c_calls/out/libc_calls.a "$kit/c/liblibc_c.a"
target/example
