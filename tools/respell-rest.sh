#!/usr/bin/env bash
# The names that tools/respell.py left: those whose signature begins on a later line, constructors, and variables. Run once, after it.
set -euo pipefail
cd "$(dirname "$0")/../crates"
words="after-three apart-all bench-with bench-without best-left-is best-left-moved best-right-is best-right-moved bytes-by-all bytes-length
changes-assoc counts-long edges-long head-stored i-is insides-are joined-two k-is last-is leaves-end lefts-are length-next near-fixed not-refused
parts-piece parts-to-are passed-all passed-more passed-stop refused-by room-cells room-edges says-each settled-one settles-no-later
share-read-small takes-steps tally-balance to-f with-refusal with-result yes-form zeros-piece"
script="s/(^|[^A-Za-z0-9_'-])bench-bytes(?![A-Za-z0-9_'-])/\$1bench_bytes_lem/g;"
for word in $words; do script+="s/(?<![A-Za-z0-9_'-])$word(?![A-Za-z0-9_'-])/${word//-/_}/g;"; done
find . -name '*.antt' -not -path '*/out/*' -print0 | xargs -0 perl -CSD -pi -e "$script"
