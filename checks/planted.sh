#!/usr/bin/env bash
# Tries each planted bug of checks/planted/CRATE/*.edit on a copy of the repository, one at a time, and says which fact refuses it.
# It fails if a crate is still proved with one. Run from the repository's root; name crates to try only theirs.
set -u
. "$(dirname "$0")/copy.sh"
survived=0
crates=("$@")
[ ${#crates[@]} -gt 0 ] || crates=($(cd checks/planted && ls))
for crate in "${crates[@]}"; do
  for edit in checks/planted/"$crate"/*.edit; do
    if ! python3 - "$crate" "$edit" <<'PY'
import sys
crate, edit = sys.argv[1:]
lines = open(edit, encoding='utf-8').read().split('\n')
path = f'crates/{crate}/' + lines[0][len('file: '):]
old, new = lines[1][len('old: '):], lines[2][len('new: '):]
text = open(path, encoding='utf-8').read()
if text.count(old) != 1:
    sys.exit(f'{edit}: its text stands {text.count(old)} times in {path}')
open(path, 'w', encoding='utf-8').write(text.replace(old, new))
PY
    then survived=1; continue; fi
    out=$(cd "crates/$crate" && rt check 2>&1)
    if printf '%s\n' "$out" | grep -q "^logic=not-proved"; then
      fact=$(printf '%s\n' "$out" | grep -m 1 -E '^fn .*: (no proof|not proved)' | cut -c1-200)
      echo "refused: $edit: $fact"
    else
      echo "SURVIVED: $edit"
      survived=1
    fi
    git checkout -q -- crates
  done
done
exit $survived
