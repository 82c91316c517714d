#!/bin/bash
# wasm/retarget.sh MODULE.bc OUT: an LLVM module that rattle made for x86-64 as OUT/rx.wasm, with its host beside it.
set -euo pipefail
here=$(cd "$(dirname "$0")" && pwd)
kit=$(dirname "$(dirname "$(realpath "$(command -v rt)")")")
tools=$kit/toolchain/bin
module=$(realpath "$1") out=$(realpath "$2")
work=$(mktemp -d)
trap 'rm -rf "$work"' EXIT
cd "$work"

"$tools/clang" --no-default-config --target=x86_64-unknown-linux-gnu -S -emit-llvm -O0 -Xclang -disable-llvm-passes -x ir "$module" -o x86.ll
if grep 'llvm\.x86\.\|call .* asm ' x86.ll; then
    echo "wasm/retarget.sh: these instructions are of x86-64 alone" >&2
    exit 1
fi
# The two lines that name the target are those that clang itself writes for wasm64.
flags="--no-default-config --target=wasm64-unknown-unknown -mcpu=lime1 -msimd128 -mbulk-memory -ffunction-sections -fdata-sections -O3"
echo 'int none;' | "$tools/clang" $flags -S -emit-llvm -x c - -o none.ll
{
    grep '^target ' none.ll
    sed '/^target /d; s/ "target-cpu"="[^"]*"//' x86.ll
} > wasm.ll
"$tools/clang" $flags -mllvm -expand-div-rem-bits=64 -mllvm -expand-fp-convert-bits=64 -Werror -c -x ir wasm.ll -o module.o
for name in heap system wide; do
    "$tools/clang" $flags -fwrapv -ffreestanding -nostdinc -Wall -Werror -Wno-incompatible-library-redeclaration -c "$here/$name.c" -o $name.o
done
"$tools/ld.lld" -flavor wasm -mwasm64 --no-entry --stack-first -z stack-size=8388608 --gc-sections --threads=1 --fatal-warnings \
    --export=main -o "$out/rx.wasm" module.o heap.o system.o wide.o
cp "$here/host.mjs" "$here/wire.mjs" "$out/"
ls -l "$out"
