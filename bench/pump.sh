#!/usr/bin/env bash
# How fast a pump is, as a ratio to what does the same in the same run: above 1 is faster than it; 0.7 is
# wanted.
#
# usage: bench/pump.sh
# Pumps 64 MiB each way at once, on one thread, best of five runs: over wires in memory, against plain Rust
# through two rings of 4,096 bytes; and over sockets, against `copy_bidirectional` of `tokio` at both ends
# of a connection on 127.0.0.1, and against plain Rust that polls such a connection. Beside them the same
# bytes once through two bare rings of `rtrb`, of which a wire in memory passes each byte through two. The
# lists are made before and compared after; room for what comes in is made in the time.
# The program of bench/pump is proved and built in a copy of the repository, where it is one more crate.
# Stops with status 1 where not all bytes came.
set -eu
. "$(dirname "$0")/common.sh"
copy_crates $(with_those_below wire_pump tcp_wire)
add_crate pump/program "bench_pump: dcop_base wire_pump tcp_wire futures rtrb tokio"
make_crate bench_pump run
rustc -O --edition 2024 "$top/bench/pump/plain.rs" -o "$folder/plain"
"$folder/plain" "$(cut -d' ' -f1 "$folder/told")" >> "$folder/told"
awk 'function rate(time) { return bytes * 1e3 / time }
    NR == 1 { bytes = $1; memory = $2; rings = $3; socket = $4; copied = $5 }
    NR == 2 {
        printf "in memory: %.0f MB/s each way by the pump; plain Rust through rings %.0f, ratio %.2f\n", rate(memory), rate($1), $1 / memory
        printf "through bare rings of rtrb: %.0f MB/s each way, ratio %.2f\n", rate(rings), $1 / rings
        printf "over sockets: %.0f MB/s each way by the pump; copy_bidirectional %.0f, ratio %.2f; plain Rust %.0f, ratio %.2f\n", rate(socket), rate(copied), copied / socket, rate($2), $2 / socket
    }
    END { exit NR != 2 }' "$folder/told"
