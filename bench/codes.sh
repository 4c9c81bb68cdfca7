#!/usr/bin/env bash
# How fast messages are encoded, decoded, framed and read from a stream, as a ratio to the same written
# plainly in Rust: above 1 is faster than that one.
#
# usage: bench/codes.sh
# The messages are UTIL of 2^16 cells, and 10^6 VALUE (a thousand of them, a thousand times over). The
# stream of their frames is read in pieces of 65,536 bytes. What both sides give is compared first. The
# crate of bench/codes/crate calls `message_code` and `wire_frames` and is a static library; it is proved
# and built in a copy of the repository, where it is one more crate. The plain side is bench/codes/plain.rs.
# Prints the best of fifteen runs each; stops with status 1 where the two differ.
set -eu
. "$(dirname "$0")/common.sh"
copy_crates $(with_those_below message_code wire_frames)
add_crate codes/crate "bench_codes staticlib: dcop_base protocol_steps message_code wire_frames"
make_crate bench_codes lib
build_on bench_codes codes/harness.rs harness
"$folder/harness"
