#!/bin/sh
# A program that places in an open register, or copies in a set-up, is refused: these types have no such call.
# The gate tries only edits that reach the prover, and these do not, so they are tried here, in a copy.
set -u
here=$(cd "$(dirname "$0")/.." && pwd)
work=$(mktemp -d)
trap 'rm -rf "$work"' EXIT
(cd "$here" && tar -c --exclude=out crates crates.txt) | tar -x -C "$work"
program=$work/crates/console
file=$program/src/phase.rt
failed=0

refused() {
    cp "$here/crates/console/src/phase.rt" "$file"
    sed -i "s/$2/$3/" "$file"
    if ! cmp -s "$here/crates/console/src/phase.rt" "$file" && (cd "$program" && rt check 2>&1) | grep -q "error\[unknown-method\]: the method \`$4\` "; then
        echo "ok: $1"
    else
        echo "FAILED: $1"
        failed=1
    fi
}

refused "no entering where an open register retires" 'register\.retire(entity)' 'register.enter(0)' enter
refused "no placing where an open register demands" 'register\.demand(demander,' 'register.place(demander,' place
refused "no placing where an open register copies" 'register\.copy(giver, taker, ticket' 'register.place(taker, ticket' place
refused "no copying where a set-up places" 'set_up\.place(holder,' 'set_up.copy(holder, holder,' copy
exit $failed
