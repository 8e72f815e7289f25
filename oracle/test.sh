#!/usr/bin/env bash
# Builds the oracle and tests it: the six Rust files are unchanged, the stored list (document 01's pinned cases among it)
# comes out as stored, what the samples are to print is what the answers give, and on generated cases and sittings the Rust and the model of the limits do not differ.
# It writes nothing outside oracle/target.
set -euo pipefail
cd "$(dirname "${BASH_SOURCE[0]}")"
sources=../docs/src/vine/src
export CARGO_TARGET_DIR="$PWD/target"

(cd "$sources" && sha256sum --check --quiet "$OLDPWD/sha256sums")
cargo build --release --offline --quiet
oracle=target/release/oracle

# What was compiled is what docs/src holds.
while read -r _ file; do
  "$oracle" source "$file" | cmp - "$sources/$file"
done < sha256sums

"$oracle" stored check stored > target/stored.txt
stored=$(awk '/ in all$/ { print $1 }' target/stored.txt)
pinned=$(grep -c '^= ' stored/pinned.txt)
# 16 S round Leaf is refused 15 by document 01 and found by the Rust, at 17 steps.
grep -q '^= no 15 17$' stored/pinned.txt
grep -q '^! ok 17 ' stored/pinned.txt

samples=$("$oracle" samples check ../samples)

# The programs of the gate replay copies of the stored words.
for words in ../crates/{check_cases,type_cases,call_cases}/data/*.bin; do
  cmp "$words" "stored/$(basename "$words")"
done

# Generated cases: the same for the same seed, and no difference, crash or error among the answers.
generated=0
for damaged in 0 100; do
  cases=target/cases-$damaged.txt
  "$oracle" gen --seed 3 --count 4000 --damaged "$damaged" > "$cases" 2> target/outcomes.txt
  "$oracle" gen --seed 3 --count 4000 --damaged "$damaged" 2> target/again.txt | cmp - "$cases"
  "$oracle" --limits < "$cases" > target/answers.txt
  if grep -n -E '^(differ|crash|error)' target/answers.txt; then
    echo "oracle: these answers to $cases are wrong" >&2
    exit 1
  fi
  generated=$((generated + $(wc -l < target/answers.txt)))
done

# Generated sittings, likewise: each is answered by one Finder of the Rust, whose steps go on.
sittings=target/sittings.txt
"$oracle" gen --sittings --seed 3 --count 1000 > "$sittings" 2> target/outcomes.txt
"$oracle" gen --sittings --seed 3 --count 1000 2> target/again.txt | cmp - "$sittings"
"$oracle" --limits < "$sittings" > target/answers.txt
if grep -n -E '(^| ; )(differ|crash|error)' target/answers.txt; then
  echo "oracle: these answers to $sittings are wrong" >&2
  exit 1
fi
seated=$(awk '/ in all$/ { print $1 }' target/outcomes.txt)

# The smallest known input on which the Rust takes too long (docs/DIFFERENCES.md); document 01 gives 15.
expect() {
  local answer
  answer=$(echo "$2" | "$oracle" $3)
  if [ "$answer" != "$1" ]; then
    echo "oracle: $1 was to be the answer, and it is $answer, to $2" >&2
    exit 1
  fi
}
slow="impl 0 0 0 0 61 1 50 35 57 41 0 0 0 0 0 0 0 0 0 0 0 18 0 0 0 25 1 0 0 0 0 2 0 0 16 0 2 0 1 30 0 1 20 32 0 0 0 0 \
0 1 20 39 0 0 0 0 0 0 0 47 0 0 0 0 1 0 10 3 1 8 0 11 0 0 0 0 0"
expect timeout "$slow" ""
expect "no 15 17" "$slow" --limits

echo "oracle: 6 files unchanged, $stored stored cases as stored ($pinned pinned), $samples as the Rust answers them, $generated generated cases and $seated calls of generated sittings without a difference"
