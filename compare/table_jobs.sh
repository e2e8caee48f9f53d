#!/usr/bin/env bash
# The Rust reader and point tests against the program `table_jobs`: the stored jobs, the largest tables and many random ones.
set -euo pipefail
cd "$(dirname "$0")/.."
source compare/compared

begin table_jobs
stored
alike large
for seed in 2 3 4 5; do
    alike random "$seed" 3000
done
echo "table_jobs: the Rust side agrees on the stored jobs and on $lines more"
