#!/usr/bin/env bash
# Builds the static library of the crate `planner_c`, and puts it where rust/restore-planner looks for it: target/staticlib/libplanner.a.
set -euo pipefail
cd "$(dirname "$0")/.."
(cd crates/planner_c && rt lib)
mkdir -p target/staticlib
cp crates/planner_c/out/libplanner_c.a target/staticlib/libplanner.a
