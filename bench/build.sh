#!/bin/sh
# Times `card build` on an image of 64 MiB against the digest alone (as bench/digest.sh does, for SHA-256) and against
# `veritysetup format` with OpenSSL's code for no processor extensions, in one run, and compares the trees. Not a test.
# It wants veritysetup, bash and crates/card/out/card (`rt run` in crates/card builds it). It proves the digest again in
# a temporary folder, so it takes some minutes.
set -eu

here=$(CDPATH= cd -- "$(dirname -- "$0")" && pwd)
. "$here/program.sh"
card=$(dirname -- "$here")/crates/card/out/card
[ -x "$card" ] || { echo "bench: no $card: run 'rt run' in crates/card first" >&2; exit 1; }
command -v veritysetup >/dev/null || { echo "bench: no veritysetup" >&2; exit 1; }

room=$(mktemp -d)
trap 'rm -rf "$room"' EXIT
trap 'exit 1' HUP INT TERM
digest_program "$room"
head -c 67108864 /dev/urandom >"$room/image"

# Appends the wall and user seconds of a command to a file.
timed() {
    times=$1
    shift
    bash -c 'TIMEFORMAT="%3R %3U"; exec 3>&2; { time "$@" >/dev/null 2>&3; } 2>>"$0"' "$times" "$@"
}

# In turn, so that each meets the same machine, and as often: the digest's program prints the best of three. Each tree
# is a new file.
for _ in 1 2 3 4 5 6 7 8; do
    "$room/crates/speed/out/speed" time | awk '$1 == "sha256" { print $2 / 1000000 }' >>"$room/digest"
    for _ in 1 2 3; do
        rm -f "$room/ours.tree" "$room/theirs.tree"
        timed "$room/ours" "$card" build --salt 00112233 "$room/image" "$room/ours.tree"
        OPENSSL_ia32cap=0x0:0x0 timed "$room/theirs" veritysetup format --no-superblock --salt=00112233 "$room/image" "$room/theirs.tree"
    done
done
cmp "$room/ours.tree" "$room/theirs.tree"
echo "the trees are the same"

least() {
    awk -v column="$2" 'NR == 1 || $column < least { least = $column } END { print least }' "$1"
}

# A build hashes the image and each tree block; a block of 4,096 bytes with this salt has as many block steps as a
# message of 4,096 bytes.
tree=$(wc -c <"$room/ours.tree")
awk -v tree="$tree" -v digest="$(least "$room/digest" 1)" \
    -v wall="$(least "$room/ours" 1)" -v user="$(least "$room/ours" 2)" \
    -v theirs="$(least "$room/theirs" 1)" -v theirs_user="$(least "$room/theirs" 2)" 'BEGIN {
    bytes = 67108864
    alone = bytes / digest / 1000000
    built = (bytes + tree) / 1000000
    printf "digest alone: %.3f s, %.0f MB/s\n", digest, alone
    printf "card build: %.3f s wall, %.3f s user, %.0f MB/s by wall\n", wall, user, built / wall
    printf "veritysetup format: %.3f s wall, %.3f s user\n", theirs, theirs_user
    printf "rate of the build to that of the digest: %.2f by wall, %.2f by user time\n", built / wall / alone, built / user / alone
}'
