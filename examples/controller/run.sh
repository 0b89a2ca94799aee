#!/usr/bin/env bash
# Builds the static library, links the controller with it, and runs it.
set -euo pipefail
cd "$(dirname "$0")/../.."
(cd crates/offsets_c && rt lib)
mkdir -p target/staticlib
cp crates/offsets_c/out/liboffsets_c.a target/staticlib/liboffsets.a
cc -O2 -Wall -Wextra -o target/controller examples/controller/controller.c target/staticlib/liboffsets.a
target/controller
