# What the bench scripts share. A script sources it, behind `set -eu`.
#
# `top` is the repository, and `folder` a new folder that is gone when the script ends.

top=$(cd "$(dirname "${BASH_SOURCE[0]}")/.." && pwd)
folder=$(mktemp -d)
trap 'rm -rf "$folder"' EXIT

# The scripts' Python finds `timing` of this folder.
export PYTHONPATH="$top/bench" PYTHONDONTWRITEBYTECODE=1

# Begins a copy of the repository in the folder, with these crates and what was proved of them.
# arguments: the crates
copy_crates() {
    mkdir "$folder/crates"
    cp "$top/HANDLES" "$folder/HANDLES"
    local crate
    for crate in "$@"; do
        cp -a "$top/crates/$crate" "$folder/crates/$crate"
        grep "^$crate:" "$top/crates.txt" >> "$folder/crates.txt"
    done
}

# Prints these crates, and all of the repository that stand below them.
# arguments: the crates
with_those_below() {
    python3 - "$top/crates.txt" "$@" <<'PY'
import sys
path, *left = sys.argv[1:]
below = {}
with open(path) as lines:
    for line in lines:
        crate, colon, uses = line.partition("#")[0].partition(":")
        if colon:
            below[crate.split()[0]] = uses.split()
found = []
while left:
    crate = left.pop()
    if crate in below and crate not in found:
        found.append(crate)
        left += below[crate]
print(*found)
PY
}

# Adds a bench crate to the copy, whose files have `.txt` behind their names.
# arguments: its folder in bench, and its line of crates.txt
add_crate() {
    local name=${2%%[ :]*}
    cp -r "$top/bench/$1" "$folder/crates/$name"
    find "$folder/crates/$name" -name '*.txt' | while read -r file; do mv "$file" "${file%.txt}"; done
    echo "$2" >> "$folder/crates.txt"
}

# Proves and builds a crate of the copy, and runs a program. What it writes goes to the file `told`.
# arguments: the crate, and what `rt` is to do
make_crate() {
    (cd "$folder/crates/$1" && rt "$2" > "$folder/told" 2> "$folder/log") || { tail -n 40 "$folder/told" "$folder/log"; exit 1; }
}

# Makes the program of a crate of the copy, as `built`.
# arguments: the crate, and a word if it is not to be proved
make_program() {
    built="$folder/crates/$1/out/$1"
    if [ -z "$2" ]; then
        make_crate "$1" run < /dev/null
    else
        built="$folder/$1"
        "$top/bench/unproved.sh" "$built" "$1" "$folder/crates"
    fi
}

# Builds a program of plain Rust on a static library of the copy, as `NAME` in the folder.
# arguments: the library, the program's source in bench, its name
build_on() {
    local kit
    kit=$(dirname "$(dirname "$(readlink -f "$(command -v rt)")")")
    rustc -O --edition 2024 "$top/bench/$2" -o "$folder/$3" \
        -L "native=$folder/crates/$1/out" -l "static=$1" \
        -L "native=$kit/c" -l static=libc_c
}
