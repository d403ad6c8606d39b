# For the scripts beside it: makes a copy of the committed repository, with what was proved before, and goes there.
# The copy is removed when the script ends. built NAME.. proves and builds programs there, archived NAME.. static libraries.
top=$(git rev-parse --show-toplevel) || exit 1
work=$(mktemp -d)
trap 'rm -rf "$work"' EXIT
git clone -q "$top" "$work/copy" || exit 1
for kept in "$top"/crates/*/out; do
  crate=$(basename "$(dirname "$kept")")
  [ -d "$kept" ] && [ -d "$work/copy/crates/$crate" ] && cp -r "$kept" "$work/copy/crates/$crate/out"
done
cd "$work/copy" || exit 1

# what a program prints in this run is of no account
built() {
  for name in "$@"; do
    (cd "crates/$name" && rt run </dev/null >/dev/null 2>&1) || true
    [ -x "crates/$name/out/$name" ] || { echo "$name was not built"; exit 1; }
  done
}

archived() {
  for name in "$@"; do
    (cd "crates/$name" && rt lib >/dev/null) || { echo "lib$name.a was not built"; exit 1; }
  done
}
