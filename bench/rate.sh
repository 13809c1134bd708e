#!/usr/bin/env bash
# Tells how many instructions a second paragon runs of three loops (loops.py), and the interpreter
# of java of the same class files where it is there, in processor time. What one round takes,
# start-up above all, is taken off. paragon has to be built (README.md, "Commands"). The word is the
# number of rounds, at most 60,000,000, so that no run ends with `budget`.
cd "$(dirname "$0")/.." || exit 1
bench=$PWD/bench
paragon=$PWD/crates/paragon/out/paragon
rounds=${1:-10000000}
folder=$(mktemp -d)
trap 'rm -rf "$folder"' EXIT
mkdir "$folder/one" "$folder/many"
(cd "$folder/one" && python3 "$bench/loops.py" 1 > /dev/null && : > in.txt) || exit 1
(cd "$folder/many" && python3 "$bench/loops.py" "$rounds" > ../loops && : > in.txt) || exit 1

run_paragon() { "$paragon" "$1" in.txt 1000000000; }
run_java() { java -Xint -cp ".:$folder" Launch "$1"; }

# The processor seconds that a loop of many rounds takes beyond those of one round.
seconds() {
  local at TIMEFORMAT='%U %S'
  for at in one many; do
    cd "$folder/$at" || exit 1
    { time "$1" "$2" > ../said 2>&1; } 2> took || { cat ../said >&2; exit 1; }
  done
  cat ../many/took ../one/took | awk 'NR == 1 { all = $1 + $2 } NR == 2 { print all - $1 - $2 }'
}

with_java=no
if command -v javac > /dev/null; then
  with_java=yes
  cat > "$folder/Launch.java" <<'END'
public class Launch {
  public static void main(String[] words) throws Exception {
    Class.forName(words[0]).getMethod("main").invoke(null);
  }
}
END
  javac -d "$folder" "$folder/Launch.java" || exit 1
else
  echo "java is left out: there is no javac"
fi

while read -r name instructions; do
  all=$((instructions * rounds))
  ours=$(seconds run_paragon "$name") || exit 1
  theirs=0
  if [ "$with_java" = yes ]; then theirs=$(seconds run_java "$name") || exit 1; fi
  awk -v name="$name" -v all="$all" -v ours="$ours" -v theirs="$theirs" 'BEGIN {
    printf "%s: %d instructions, %.2f s, %.1f ns each", name, all, ours, ours * 1e9 / all
    if (theirs > 0) printf "; java -Xint %.2f s, 1/%.1f of its rate", theirs, ours / theirs
    print ""
  }'
done < "$folder/loops"
