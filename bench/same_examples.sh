#!/usr/bin/env bash
# Compares each example, and each source that a page shows, with the text that a test checks.
cd "$(dirname "$0")/.." || exit 1
rows=$(cat crates/par_rows/src/*.rt)
status=0

compare() {
  if [[ $rows != *$'= "\\\n'"$2"$'\n";'* ]]; then
    echo "$1 differs from its row"
    status=1
  fi
}

for example in examples/*.par; do
  compare "$example" "$(<"$example")"
done
for page in README.md docs/*.md; do
  while IFS= read -r -d '' source; do
    compare "$page" "${source%$'\n'}"
  done < <(awk '/^```paragon$/ { inside = 1; next } /^```$/ { if (inside) printf "%c", 0; inside = 0; next } inside' "$page")
done
exit $status
