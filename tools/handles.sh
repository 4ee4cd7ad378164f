#!/bin/sh
# Shows what the checker refuses of a handle: a program that lets one go, one that uses one after close, and one that copies
# one, each for that very reason; and that the program without these edits is accepted. `rt ci` cannot count these refusals as
# must-fail edits, since the checker refuses such a program before it proves anything; so .ci/run calls this script first. It
# edits a copy of crates/figure, and compiles and starts it without proofs, which takes some 15 seconds for each program.
set -eu

root=$(CDPATH= cd -- "$(dirname -- "$0")/.." && pwd)
room=$(mktemp -d)
trap 'rm -rf "$room"' EXIT
trap 'exit 1' HUP INT TERM
mkdir "$room/crates"
for crate in "$root"/crates/*/; do
    mkdir "$room/crates/$(basename "$crate")"
    (cd "$crate" && tar -cf - --exclude=./out .) | (cd "$room/crates/$(basename "$crate")" && tar -xf -)
done
cp "$root/crates.txt" "$room/"
source=$room/crates/figure/src/main.rt

# tried: what the program comes to, in $room/log
tried() {
    (cd "$room/crates/figure" && rt try) >"$room/log" 2>&1 || true
}

# accepted NAME: the program compiles and is started
accepted() {
    tried
    if grep -q '^[^ ]*: error' "$room/log" || ! grep -q '^run=ended' "$room/log"; then
        cat "$room/log" >&2
        echo "$1: NOT accepted" >&2
        exit 1
    fi
    echo "$1: accepted"
}

# refused NAME REASON SCRIPT: the program, edited by the sed script, is refused with this error about the handle
refused() {
    cp "$root/crates/figure/src/main.rt" "$source"
    sed -i "$3" "$source"
    if cmp -s "$root/crates/figure/src/main.rt" "$source"; then
        echo "$1: the edit no longer fits" >&2
        exit 1
    fi
    tried
    if ! grep -F "error[$2" "$room/log" | head -n 1 | grep -q "Handle"; then
        cat "$room/log" >&2
        echo "$1: NOT refused with $2" >&2
        exit 1
    fi
    echo "$1: refused, error[$2"
}

accepted "a handle that is closed"
# shellcheck disable=SC2016  # the backquotes are the checker's
{
    refused "a handle that is let go" 'linear-value-let-go]: `file` is let go' '/^    end(mount, file);$/d'
    refused "a handle that is used after close" 'borrow-e0382]: borrow of moved value: `file`' 's/^    answer$/    mount.read(\&file, 0, buf)/'
    refused "a handle that is copied" 'unknown-method]: the method `clone`' 's/^    end(mount, file);$/    let copy = file.clone(); end(mount, copy); end(mount, file);/'
}
