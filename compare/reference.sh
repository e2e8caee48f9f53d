#!/usr/bin/env bash
# The Rust elimination by itself: every job of document 01's table, and the same run by a second, naive way.
set -euo pipefail
cd "$(dirname "$0")/.."

cargo test --quiet --release --offline --manifest-path compare/Cargo.toml --target-dir target/compare --lib --bin elimination_jobs
