#!/usr/bin/env bash
# Runs both programs with one request for memory refused, each in turn: paragonc on each example, on
# a program of four classes and on one with fields whose policies are inferred, with --check,
# --trace, --audit, --infer and plain; paragon, plain and with --verify, on the class files that it
# writes, and on those of linked.py (objects, handlers, calls); and paragonc with --sample. The status has to be 7 or that of
# the whole run; what is printed has to be the first lines of the whole run, each whole; and of the
# class files the first ones have to be whole and the others absent. Of more than 20,000 requests, as
# a sample makes them, 1,000 are refused that lie evenly. The words of this script, if there are any,
# choose examples by name, and `four`, `open`, `linked` and `sample`. Both programs have to be built
# (README.md, "Commands"), or to be named by PARAGONC and PARAGON.
cd "$(dirname "$0")/.." || exit 1
bench=$PWD/bench
examples=$PWD/examples
compiler=$(realpath -m "${PARAGONC:-crates/paragonc/out/paragonc}")
runner=$(realpath -m "${PARAGON:-crates/paragon/out/paragon}")
for program in "$compiler" "$runner"; do
  if [[ ! -x $program ]]; then
    echo "$program is not built"
    exit 1
  fi
done
if ! command -v cc > /dev/null; then
  echo "skipped: there is no cc"
  exit 0
fi
folder=$(mktemp -d)
trap 'rm -rf "$folder"' EXIT
cp "$examples"/*.par "$examples"/*.txt "$folder"
cd "$folder" || exit 1

# Stands before the C library: counts the requests, and refuses the one whose number REFUSED has.
cat > requests.c <<'END'
#include <stdio.h>
#include <stdlib.h>
void *__libc_malloc(size_t size);
void *__libc_realloc(void *old, size_t size);
static long requests;
static int is_refused(void) {
  const char *number = getenv("REFUSED");
  requests += 1;
  return number && atol(number) == requests;
}
void *malloc(size_t size) { return is_refused() ? NULL : __libc_malloc(size); }
void *realloc(void *old, size_t size) { return is_refused() ? NULL : __libc_realloc(old, size); }
__attribute__((destructor)) static void tell(void) { dprintf(9, "%ld\n", requests); }
END
cc -shared -fPIC -O1 -o requests.so requests.c || exit 1
failures=0

# Whether the file has the first lines of the whole run, each whole.
is_front() {
  [[ ! -s $1 ]] || head -n "$(wc -l < "$1")" whole | cmp -s - "$1"
}

# Whether the class files that are left are the first of those of the whole run, each whole, and all
# of them where the status is not 7. The class files are moved away.
are_left() {
  local ended=$1 class behind=0 right=0
  shift
  for class in "$@"; do
    if [[ ! -e $class ]]; then
      behind=1
      if [[ -e whole.d/$class && $ended != 7 ]]; then right=1; fi
    elif ((behind)) || ! cmp -s "$class" "whole.d/$class"; then
      right=1
    fi
    rm -f "$class"
  done
  return $right
}

# The first word names the class files, in their order, that the other words may write.
sweep() {
  local classes status ended requests step n short=0 runs=0
  read -ra classes <<< "$1"
  shift
  rm -rf whole.d
  mkdir whole.d
  LD_PRELOAD=./requests.so "$@" > whole 9> count
  status=$?
  requests=$(< count)
  for class in "${classes[@]}"; do
    if [[ -e $class ]]; then mv "$class" whole.d; fi
  done
  step=$((requests > 20000 ? requests / 1000 : 1))
  for ((n = 1; n <= requests; n += step)); do
    REFUSED=$n LD_PRELOAD=./requests.so "$@" > printed 9> count
    ended=$?
    ((runs += 1))
    ((ended == 7)) && ((short += 1))
    if ! are_left "$ended" "${classes[@]}" || ! is_front printed ||
      { ((ended != 7)) && { ((ended != status)) || ! cmp -s printed whole; }; }; then
      echo "${*##*/}: request $n refused: status $ended, printed: $(< printed)"
      ((failures += 1))
    fi
  done
  for class in "${classes[@]}"; do
    if [[ -e whole.d/$class ]]; then mv "whole.d/$class" .; fi
  done
  echo "${*##*/}: status $status, $requests requests; of $runs that were refused $short gave 7"
}

is_chosen() {
  [[ ! $chosen || " $chosen " == *" $1 "* ]]
}

# Four classes, of which one is an exception's; what bob may see since the lock is open; and a run
# that throws, catches and shows.
cat > four.par <<'END'
actor alice, bob;
lock Paid;
class Shop {
  ?{alice:; bob: Paid} input int key();
  ?{alice:; bob:} output void show(int v);
  static void main() !bottom {
    notnull Item item = new Item();
    notnull Box box = new Box();
    box.item = item;
    try {
      item.number = 7;
      if (item.number > 6) { throw new Bad(); }
    } catch (Bad bad) { show(item.number); }
    open Paid;
    show(key());
  }
}
class Item ?{alice:; bob:} { ?{alice:; bob:} int number; }
class Box ?{alice:; bob:} { ?{alice:; bob:} Item item; }
class Bad extends Exception { }
END
echo "Shop.key: 42" > four.txt

# Fields that leave their policies open.
cat > open.par <<'END'
actor alice, bob;
lock Paid;
class Shop {
  ?{alice:; bob: Paid} input int key();
  ?_ static int one;
  ?_ static int two;
  ?_ static int three;
  static void main() {
    one = two;
    two = three;
    three = key();
  }
}
END
echo "Shop.key: 42" > open.txt

chosen=$*
for source in *.par; do
  name=${source%.par}
  is_chosen "$name" || continue
  classes=$(sed -n 's/^class \([A-Za-z]*\) .*/\1.class/p' "$source" | tr '\n' ' ')
  actor=$(sed -n 's/^actor \([a-z]*\).*/\1/p' "$source")
  main=$(sed -n '/static void main/q; s/^class \([A-Za-z]*\) .*/\1/p' "$source" | tail -n 1)
  sweep "" "$compiler" --check "$source"
  sweep "" "$compiler" --trace "$source" "$name.txt" 1000
  sweep "" "$compiler" --audit "$actor" "$source"
  sweep "" "$compiler" --infer "$source"
  sweep "$classes" "$compiler" "$source"
  if [[ -e $main.class ]]; then
    sweep "" "$runner" "$main" "$name.txt" 1000
    sweep "" "$runner" --verify "$main"
  fi
  rm -f *.class
done
if is_chosen linked; then
  python3 "$bench/linked.py" || exit 1
  echo "Stock.next: 8 5 6 0 7" > ends.txt
  echo "Stock.next: 8 5 6" > divides.txt
  sweep "" "$runner" Stock ends.txt 1000
  sweep "" "$runner" Stock divides.txt 1000
  sweep "" "$runner" Stock ends.txt 50
  sweep "" "$runner" --verify Stock
  : > empty.txt
  sweep "" "$runner" Stock empty.txt 1000
  sed -i s/half/hall/ Item.class
  sweep "" "$runner" Stock ends.txt 1000
fi
if is_chosen sample; then sweep "" "$compiler" --sample 7; fi
((failures == 0))
