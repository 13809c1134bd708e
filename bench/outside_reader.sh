#!/usr/bin/env bash
# Compiles the shop, and compares the members that javap reads in its class file with those of the
# source. paragonc has to be built (README.md, "Commands").
cd "$(dirname "$0")/.." || exit 1
paragonc=$PWD/crates/paragonc/out/paragonc
source=$PWD/examples/shop.par
if ! command -v javap > /dev/null; then
  echo "skipped: there is no javap"
  exit 0
fi
folder=$(mktemp -d)
trap 'rm -rf "$folder"' EXIT
cp "$source" "$folder/shop.par"
cd "$folder" || exit 1
"$paragonc" shop.par || exit 1
expected='public final class Shop {
  public static int got;
  public Shop();
  public static native int key();
  public static native void show(int);
  public static void main();
}'
read_back=$(javap -p Shop.class)
if [[ $read_back != "$expected" ]]; then
  echo "javap reads other members:"
  echo "$read_back"
  exit 1
fi
echo "javap reads the members of the source"
