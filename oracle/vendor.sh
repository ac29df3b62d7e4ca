#!/bin/sh
# Lays the nine original files, unchanged, and the three shims that must stand beside them into vendor/, which is never committed.
set -eu
here=$(cd "$(dirname "$0")" && pwd)
from=${ORIGINAL:-$here/../../shared/docs/src}/crates/solverforge-solver/src/phase/construction/grouped_scalar
rm -rf "$here/vendor"
mkdir -p "$here/vendor/assignment_state"
cp "$from"/*.rs "$here/vendor/"
cp "$from"/assignment_state/membership.rs "$here/vendor/assignment_state/"
cp "$here"/vendor-shims/*.rs "$here/vendor/"
