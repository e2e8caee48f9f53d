#!/usr/bin/env bash
# The Rust polynomials print, for the same operands, what the program `polynomial_jobs` is held to in the gate.
set -euo pipefail
cd "$(dirname "$0")/.."
source compare/compared

begin polynomial_jobs
"$rust" | cmp - crates/polynomial_jobs/stdout
echo "polynomial_jobs: the Rust side agrees on $(wc -l <crates/polynomial_jobs/stdout) lines"
