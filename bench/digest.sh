#!/bin/sh
# Times SHA-256 and SHA-512 of this repository on 64 MiB in messages of 4,096 bytes, against OpenSSL's
# code with no processor extensions, in one run, and prints the rates and their ratio.
# Not a test. It proves the libraries again in a temporary folder, so it takes some minutes.
set -eu

here=$(CDPATH= cd -- "$(dirname -- "$0")" && pwd)
. "$here/program.sh"
command -v openssl >/dev/null || { echo "bench: no openssl" >&2; exit 1; }

room=$(mktemp -d)
trap 'rm -rf "$room"' EXIT
trap 'exit 1' HUP INT TERM

digest_program "$room"

# Kilobytes of 1,000 bytes in a second, the best of three runs of a second each.
openssl_rate() {
    for _ in 1 2 3; do
        OPENSSL_ia32cap=0x0:0x0 openssl speed -seconds 1 -bytes 4096 "$1" 2>/dev/null
    done | awk -v name="$1" '$1 == name { rate = $2 + 0; if (rate > best) best = rate } END { print best }'
}

"$room/crates/speed/out/speed" time >"$room/ours"
while read -r name micros _; do
    awk -v name="$name" -v micros="$micros" -v theirs="$(openssl_rate "$name")" 'BEGIN {
        ours = 64 * 1024 * 1024 / micros
        theirs = theirs / 1000
        printf "%s: ours %.0f MB/s, openssl %.0f MB/s, ratio %.2f\n", name, ours, theirs, ours / theirs
    }'
done <"$room/ours"
