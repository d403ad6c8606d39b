#!/usr/bin/env bash
# Shows that programs which misuse forms and frames do not compile: one that reads from bytes that were never accepted,
# one that fills in a closed form, one that goes on with a form that it has closed, and one that lets a form go unnamed.
# Each is put into a copy of the repository as a trial crate; it fails if the compiler takes one. Run from the
# repository's root.
set -u
. "$(dirname "$0")/copy.sh"
mkdir -p crates/trial/src
deps=$(sed -n 's/^form: //p' crates.txt)
frames=$(sed -n 's/^frame: //p' crates.txt)
all=$(printf '%s %s form frame filling places blanks moves lines judging' "$deps" "$frames" | tr ' ' '\n')
printf 'trial: %s\n' "$(sed 's/:.*//' crates.txt | grep -Fx "$all" | tr '\n' ' ' | sed 's/ $//')" >> crates.txt
taken=0

# what it shows, the error, and the program on standard input
try() {
  cat > crates/trial/src/lib.rt
  out=$(cd crates/trial && rt check 2>&1)
  if printf '%s\n' "$out" | grep -E "error\[$2\]" | head -n 1; then
    echo "rejected: $1"
  else
    printf '%s\n' "$out" | tail -n 5
    echo "NOT REJECTED: $1"
    taken=1
  fi
}

try 'reading from bytes that were never accepted' private-field <<'RT'
use frame::Frame;

// Makes a frame of bytes that nobody accepted.
pub fn unaccepted<'a>(bytes: &'a [u8], dictionary: &'a [u8]) -> Frame<'a> {
    Frame { bytes, dictionary }
}
RT

try 'filling in a closed form' unknown-method <<'RT'
use form::ClosedForm;
use types::TypeLibrary;

// Appends an entry to a form that is closed.
pub fn fill_closed<L: TypeLibrary>(dictionary: &[u8], library: &L, buffer: &mut [u8], form: ClosedForm) {
    let mut closed = form;
    let _ = closed.append(dictionary, library, buffer, 78);
    closed.abandon();
}
RT

try 'filling in a form that has been closed' borrow-e0382 <<'RT'
use form::ClosedForm;
use form::OpenForm;
use types::TypeLibrary;
use wire::Refusal;

// Goes on with the open form after it was closed.
pub fn fill_on<L: TypeLibrary>(
    dictionary: &[u8],
    library: &L,
    buffer: &mut [u8],
    form: OpenForm,
) -> Result<ClosedForm, (OpenForm, Refusal)> {
    let mut open = form;
    let closed = open.close(dictionary, library, buffer);
    let _ = open.append(dictionary, library, buffer, 78);
    closed
}
RT

try 'letting a form go without its name' linear-value-let-go <<'RT'
use form::OpenForm;

// Forgets a form.
pub fn forget(form: OpenForm) {
    let _open = form;
}
RT

exit $taken
