#!/usr/bin/env bash
# Builds `dcop`, or another program of this repository, without proofs, to measure a change before it is proved. `./build --quick` runs it too.
#
# usage: bench/unproved.sh OUT [CRATE [FOLDER]]
# OUT is where the program goes; CRATE is that of the program, `solve_cli` where none is told; FOLDER is that of all crates, `crates` of
# this repository where none is told. The file that is made stands behind no proof, and is for measuring and for a first look alone: the
# gate never runs it.
#
# `rt try` compiles from the sources without proofs, and tests while the program runs what proofs would show. This script has it
# compile with a folder of tools whose compiler keeps the module that it is given, takes the tests out of that, and compiles the rest as
# well as LLVM can. Blocks, bytes and pages are those of the proved program. Instructions are a third more, since a build of what is
# proved knows more of its loops: so compare two such builds with each other, and not with a proved one. It takes four
# minutes of a processor and 4 GB of memory, mostly for the two compilations.
set -eu
out=$(realpath -m "${1:?usage: bench/unproved.sh OUT [CRATE [FOLDER]]}")
crate=${2:-solve_cli}
. "$(dirname "$0")/common.sh"
crates=$(realpath "${3:-$top/crates}")
kit=$(dirname "$(dirname "$(readlink -f "$(command -v rt)")")")
target=(--target=x86_64-unknown-linux-gnu --sysroot="$kit/toolchain" -march=x86-64 --no-default-config -no-canonical-prefixes)

# A kit whose compiler keeps a module and gives up: what `rt try` would do with it is not wanted.
mkdir -p "$folder/kit/bin" "$folder/kit/toolchain/bin"
for part in "$kit"/*; do
    case ${part##*/} in bin | toolchain) ;; *) ln -s "$part" "$folder/kit/" ;; esac
done
ln -s "$kit"/bin/* "$folder/kit/bin/"
rm "$folder/kit/bin/rt" "$folder/kit/bin/rtlib.py"
cp "$kit/bin/rt" "$kit/bin/rtlib.py" "$folder/kit/bin/"
ln -s "$kit/toolchain/lib" "$folder/kit/toolchain/lib"
ln -s "$kit"/toolchain/bin/* "$folder/kit/toolchain/bin/"
rm "$folder/kit/toolchain/bin/clang"
cat > "$folder/kit/toolchain/bin/clang" <<TOOL
#!/usr/bin/env bash
for word in "\$@"; do
    case \$word in
    *.bc) if [ "\$(stat -c %s "\$word")" -gt 100000 ]; then cp "\$word" "$folder/module.bc"; exit 1; fi ;;
    esac
done
exec "$kit/toolchain/bin/clang" "\$@"
TOOL
chmod +x "$folder/kit/toolchain/bin/clang"

(cd "$crates/$crate" && python3 "$folder/kit/bin/rt" try < /dev/null > "$folder/told" 2>&1) || true
[ -f "$folder/module.bc" ] || { tail -n 30 "$folder/told"; exit 1; }
"$kit/toolchain/bin/clang" "${target[@]}" -x ir "$folder/module.bc" -S -emit-llvm -O0 -o "$folder/module.ll" 2> "$folder/log"
# What is tested, and the bytes that fill a variable before it is written.
grep -v -e 'call void @"rattle-llvm-checks::' -e 'llvm.memset.p0.i64(ptr %r[0-9]*, i8 -86' "$folder/module.ll" > "$folder/bare.ll"
"$kit/toolchain/bin/clang" "${target[@]}" -mllvm -no-trap-after-noreturn -ffunction-sections -fdata-sections -fPIE -O3 \
    -c -x ir "$folder/bare.ll" -o "$folder/module.o" 2> "$folder/log"
"$kit/bin/rattle-link" --target x86_64-unknown-linux-gnu --toolchain "$kit/toolchain" -o "$out" \
    "$folder/module.o" "$kit/c/libos_c.a" "$kit/c/liblibc_c.a" > "$folder/log"
ls -l "$out"
