#!/bin/bash
# wasm/build.sh [OUT]: the proved program for a browser, as rx.wasm in the folder OUT (wasm/out), with its host.
#
# `rt` proves and builds the program as ever. Then it builds it again for a plain x86-64, and sees a view of
# the kit, by links in a temporary folder, in which `clang` is a script that keeps the LLVM module it is
# handed. That module is compiled once more, for wasm64, and linked with the three C files beside this one.
set -euo pipefail
here=$(cd "$(dirname "$0")" && pwd)
out=$(realpath -m "${1:-$here/out}")
kit=$(dirname "$(dirname "$(realpath "$(command -v rt)")")")
tools=$kit/toolchain/bin
work=$(mktemp -d)
trap 'rm -rf "$work"' EXIT
mkdir -p "$work/kit/bin" "$work/kit/toolchain/bin" "$out"

# rt looks for the kit around its own file, so rt and its library are copied, and all but what is there already is linked.
ln -s "$kit"/* "$work/kit/" 2>/dev/null || true
ln -s "$kit"/bin/* "$work/kit/bin/"
rm "$work/kit/bin/rt" "$work/kit/bin/rtlib.py"
cp "$kit/bin/rt" "$kit/bin/rtlib.py" "$work/kit/bin/"
ln -s "$kit/toolchain/lib" "$work/kit/toolchain/lib"
ln -s "$tools"/* "$work/kit/toolchain/bin/"
rm "$work/kit/toolchain/bin/clang"
cat > "$work/kit/toolchain/bin/clang" <<END
#!/bin/sh
[ ! -f module.bc ] || cp module.bc "$work/module.bc"
exec "$tools/clang" "\$@"
END
chmod +x "$work/kit/toolchain/bin/clang"

cd "$here/../crates/rx"
rt run < /dev/null > "$work/said" 2>&1 || true
# The program that was just built is put back at the end.
mkdir "$work/before"
[ ! -f out/rx.stamp ] || mv out/rx out/rx.o out/rx.stamp "$work/before/"
trap 'mv "$work"/before/* out/ 2>/dev/null || true; rm -rf "$work"' EXIT
"$work/kit/bin/rt" run --cpu x86-64 --jobs 1 < /dev/null > "$work/said" 2>&1 || true
if ! grep '^logic=proved' "$work/said" || [ ! -f "$work/module.bc" ]; then
    cat "$work/said"
    echo "wasm/build.sh: the program was not built" >&2
    exit 1
fi
"$here/retarget.sh" "$work/module.bc" "$out"
