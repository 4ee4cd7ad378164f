# Read by the other scripts. `digest_program ROOM` builds the timing program ROOM/crates/speed/out/speed, of speed.rs.txt
# and the libraries alone. It proves them again in that folder, so it takes some minutes. It wants $here, this folder.
digest_program() {
    root=$(dirname -- "$here")
    mkdir -p "$1/crates/speed/src"
    for crate in constants sha2_block digest; do cp -r "$root/crates/$crate" "$1/crates/"; done
    rm -rf "$1"/crates/*/out
    cp "$here/speed.rs.txt" "$1/crates/speed/src/main.rt"
    printf '%s\n' 'constants:' 'sha2_block: constants' 'digest: constants sha2_block' 'speed: digest anyhow' >"$1/crates.txt"
    if ! (cd "$1/crates/speed" && rt run) >"$1/check.log" 2>&1; then
        tail -n 20 "$1/check.log" >&2
        echo "bench: the timing program was not proved, so it was not built" >&2
        exit 1
    fi
}
