#!/usr/bin/env bash
# run.sh NAME [WORD..]: proves the benchmark bench/NAME over the crates as they stand, in a folder of its own (WORK, or a new one), and runs
# it with these words, or else once with each line of bench/NAME/words. It is no part of the gate. bench/NAME/needs lists what it stands on.
set -eu
here=$(cd "$(dirname "$0")" && pwd)
name=$1
shift
work=${WORK:-$(mktemp -d)}
for crate in "$here"/../crates/*; do
  copy="$work/crates/${crate##*/}"
  mkdir -p "$copy"
  rm -rf "$copy"/{src,specs,proofs}
  for part in src specs proofs; do
    if [ -d "$crate/$part" ]; then cp -r "$crate/$part" "$copy"; fi
  done
done
mkdir -p "$work/crates/bench_$name/src"
cp "$here/$name/main.rattle" "$work/crates/bench_$name/src/main.rt"
cp "$here/../crates.txt" "$work/crates.txt"
echo "bench_$name: $(cat "$here/$name/needs")" >> "$work/crates.txt"
cd "$work/crates/bench_$name"
if [ $# = 0 ] && [ -f "$here/$name/words" ]; then
  while read -r words <&3; do
    echo "$words"
    rt run -- $words
  done 3< "$here/$name/words"
else
  rt run -- "$@"
fi
