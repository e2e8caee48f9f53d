#!/usr/bin/env bash
# The Rust elimination and point tests against the program `elimination_jobs`: the stored jobs and many more, with every refusal among them.
set -euo pipefail
cd "$(dirname "$0")/.."
source compare/compared

begin elimination_jobs
stored
compare() {
    alike "$@"
    cat "$room/jobs" >>"$room/all"
}
compare literature
compare heavy
compare large
for seed in 2 3 4; do
    compare random "$seed" 6000
    compare rooms "$seed" 6000
    compare points "$seed" 1000
    compare damaged "$seed" 4000
done

"$rust" census <"$room/all" >"$room/census"
cat "$room/census"
echo "elimination_jobs: the Rust side agrees on the stored jobs and on $(head -n 1 "$room/census" | cut -d ' ' -f 1) more"
