#!/usr/bin/env bash
# Shows that the calls allocate nothing: the static libraries of `gateway` (check, accept, find) and of `compared` (the
# cutter, and all calls on forms) ask the linker for no function that hands out or takes back memory. It prints what they
# do ask for. It works on a copy of the committed repository. Run from the repository's root.
set -eu
. "$(dirname "$0")/copy.sh"
allocates=0
for name in gateway compared; do
  archived "$name"
  asked=$(nm -u "crates/$name/out/lib$name.a" | awk 'NF == 2 { print $2 }' | sort -u | tr '\n' ' ')
  echo "lib$name.a asks for: ${asked:-nothing}"
  if printf '%s\n' $asked | grep -E '^(malloc|calloc|realloc|reallocarray|free|aligned_alloc|posix_memalign|mmap|sbrk|brk)$'; then
    allocates=1
  fi
done
exit $allocates
