#!/bin/sh
# Times the reading of all files of a card of 32 MiB (blocks of 4,096 bytes, SHA-256, a salt of 32 bytes, eight files)
# through a mount over memory, against the digest alone on the same number of blocks, in one run, and prints the ratio and
# the bytes of a mount. Not a test. It wants python3, and proves the libraries in a temporary folder, so it takes some minutes.
set -eu

here=$(CDPATH= cd -- "$(dirname -- "$0")" && pwd)
root=$(dirname -- "$here")
room=$(mktemp -d)
trap 'rm -rf "$room"' EXIT
trap 'exit 1' HUP INT TERM

libraries='constants sha2_block digest tree geometry builder device media layers verity cache volume calls reader mount'
mkdir -p "$room/crates/reading/src" "$room/files"
for crate in $libraries; do
    cp -r "$root/crates/$crate" "$room/crates/"
    grep "^$crate:" "$root/crates.txt" >>"$room/crates.txt"
done
rm -rf "$room"/crates/*/out
cp "$here/reading.rs.txt" "$room/crates/reading/src/main.rt"
echo 'reading: digest geometry builder device media calls reader mount anyhow' >>"$room/crates.txt"
if ! (cd "$room/crates/reading" && rt run) >"$room/check.log" 2>&1; then
    tail -n 20 "$room/check.log" >&2
    echo "bench: the timing program was not proved, so it was not built" >&2
    exit 1
fi

for i in 0 1 2 3 4 5 6 7; do head -c 4194240 /dev/urandom >"$room/files/f$i"; done
python3 "$root/tools/volume.py" "$room/files" "$room/image" 4096
"$room/crates/reading/out/reading" "$room/image" | awk '{
    printf "%d data blocks, %d levels: read in %.3f s, the digest alone %.3f s, ratio %.2f\n", $3, $4, $1 / 1e6, $2 / 1e6, $2 / $1
    printf "a mount over memory has %d bytes\n", $5
}'
