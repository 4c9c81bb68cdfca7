#!/usr/bin/env bash
# How fast tables are joined and projected, as a ratio to plain Rust loops in the same run: above 1 is
# faster than they.
#
# usage: bench/tables.sh
# Joins 20 tables of pairs over four variables of size 32, so into 2^20 cells: ten times one whose cells
# follow the last variable, and ten times one whose cells stride along it. A join makes the cells, adds
# the tables and copies the cells out. Projects a table of 2^20 cells by its first and by its last
# variable. The crate of bench/tables/crate calls `util_join` and `util_project` and is a static
# library; it is proved and built in a copy of the repository, where it is one more crate.
# bench/tables/harness.rs has the plain loops. Prints the best of nine runs each.
set -eu
. "$(dirname "$0")/common.sh"
copy_crates $(with_those_below util_join util_project)
add_crate tables/crate "bench_tables staticlib: dcop_base util_join util_project"
make_crate bench_tables lib
build_on bench_tables tables/harness.rs harness
"$folder/harness"
