#!/usr/bin/env bash
# Where the instructions of one run go, and who asks for memory.
#
# usage: bench/profile.sh PROGRAM FILE WORDS..
# PROGRAM is a built program, which is run with these WORDS on FILE: once by callgrind, which counts instructions, and once
# by dhat, which counts blocks and bytes that are asked for (both of valgrind). Counts are the same on a busy machine as on an
# idle one. It takes 50 to 100 times as long as the run itself.
#
# Prints a table of the crates by their own instructions; one of the functions by their own instructions, with those of
# what they call added, and with how often they were called; and one of who asks for memory, which is the first function above
# the kit's own crates. A function that the compiler has put into its callers counts as theirs. A table has as
# many rows as the variable `ROWS` says (16).
# A program that `rt run` builds has its names. Where they were stripped, names are places, and only totals tell something.
# One that `rt try` builds tests while it runs what proofs show, which takes about half of its instructions.
set -eu
program=${1:?usage: bench/profile.sh PROGRAM FILE WORDS..}
file=${2:?usage: bench/profile.sh PROGRAM FILE WORDS..}
shift 2
. "$(dirname "$0")/common.sh"
run() {
    local log=$1
    shift
    valgrind "$@" < "$file" > "$folder/out" 2> "$log" || test $? -lt 126 || { tail -n 20 "$log"; exit 1; }
}
run "$folder/log" --tool=callgrind --callgrind-out-file="$folder/calls" "$program" "$@"
run "$folder/log" --tool=dhat --dhat-out-file="$folder/blocks" "$program" "$@"
python3 - "$folder" "${ROWS:-16}" <<'PY'
import collections, json, re, sys
folder, rows = sys.argv[1], int(sys.argv[2])
KIT = ("rattle_", "std_alloc::", "core::", "rtrb::", "indexmap::")


def read_calls(path):
    """Own instructions of each function, those with what it calls, and how often it was called."""
    names, own, whole, calls = {}, collections.Counter(), collections.Counter(), collections.Counter()
    function = callee = None
    next_is_call = False

    def named(text):
        number, _, name = text.partition(" ")
        if name:
            names[number] = re.sub(r"'\d+$", "", name)
        return names[number]

    with open(path) as text:
        for row in text:
            row = row.rstrip("\n")
            key, _, value = row.partition("=")
            if key == "fn":
                function = named(value)
            elif key == "cfn":
                callee = named(value)
            elif key == "calls":
                calls[callee] += int(value.split()[0])
                next_is_call = True
            elif re.match(r"[0-9+*-]", row):
                cost = int((row.split() + ["0"])[1])
                if next_is_call:
                    if callee != function:
                        whole[function] += cost
                else:
                    own[function] += cost
                    whole[function] += cost
                next_is_call = False
    return own, whole, calls


def crate_of(function):
    if "::" in function:
        return function.partition("::")[0]
    return "places without names" if function.startswith("0x") else "C library and start"


def short(name):
    """A name without the numbers of its generic arguments."""
    return re.sub(r"::<#[0-9a-f]+>", "", name)


def asking(frames):
    """The first function above the kit's crates."""
    found = [re.sub(r"^0x[0-9A-F]+: (.*?) \([^()]*\)$", r"\1", frame) for frame in frames]
    for name in found[1:]:
        if not name.startswith(KIT):
            return short(name)
    return short(found[-1])


own, whole, calls = read_calls(f"{folder}/calls")
total = sum(own.values())
print(f"{total:,} instructions")
crates = collections.Counter()
for name, cost in own.items():
    crates[crate_of(name)] += cost
print("\nown %  crate")
for crate, cost in crates.most_common(rows):
    print(f"{100 * cost / total:5.1f}  {crate}")
print("\nown %  with calls %      calls  function")
for name, cost in own.most_common(rows):
    print(f"{100 * cost / total:5.1f}  {100 * whole[name] / total:12.1f}  {calls[name]:9,}  {short(name)}")
print("\nwith calls %  own %      calls  function, of those that are not above")
shown = {name for name, _ in own.most_common(rows)}
others = [(name, cost) for name, cost in whole.most_common() if name not in shown and "::" in name]
for name, cost in others[:rows]:
    print(f"{100 * cost / total:12.1f}  {100 * own[name] / total:5.1f}  {calls[name]:9,}  {short(name)}")

with open(f"{folder}/blocks") as text:
    found = json.load(text)
blocks, size = collections.Counter(), collections.Counter()
for point in found["pps"]:
    name = asking([found["ftbl"][frame] for frame in point["fs"]])
    blocks[name] += point["tbk"]
    size[name] += point["tb"]
asked = ", ".join(f"{name} {calls[name]:,}" for name in ("malloc", "realloc", "free"))
print(f"\ncalls of the allocator: {asked}; {sum(blocks.values()):,} blocks, {sum(size.values()):,} bytes asked for")
print(f"they take {100 * sum(own[name] for name in own if re.match(r'_?(int_)?(malloc|realloc|free|calloc|unlink_chunk|sysmalloc|_libc)', name)) / total:.1f} % of the instructions")
print("\n   blocks        bytes  asked for by")
for name, count in size.most_common(rows):
    print(f"{blocks[name]:9,}  {count:11,}  {name}")
PY
