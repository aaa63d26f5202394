#!/bin/sh
# Builds each example beside its source. Needs Debian's packages clang, lld and wabt, and for the
# one in Rust rustc and libstd-rust-dev-wasm32. RUSTC names another rustc. usage: examples/chaincode/build.sh
set -eu
usage() { sed -n '2,/^set/{/^#/s/^# \{0,1\}//p}' "$0"; }
case "$*" in
    "") ;;
    --help | -h) usage; exit 0 ;;
    *) usage >&2; exit 2 ;;
esac
cd -- "$(dirname -- "$0")"
room=$(mktemp -d)
trap 'rm -r "$room"' EXIT

# build NAME LEVEL: the module of NAME.c, optimized at this level. It is linked by wasm-ld itself, since clang hands what
# it links to wasm-opt, where that is installed, which makes other bytes.
build() {
    clang --target=wasm32 -mcpu=mvp "$2" -Wall -Wextra -ffreestanding -fno-builtin -c -o "$room/$1.o" "$1.c"
    wasm-ld --no-entry --strip-all --compress-relocations -z stack-size=8192 -o "$1.wasm" "$room/$1.o"
}

# find_rustc TARGET: sets rustc to one that has the library of this target.
find_rustc() {
    target=$1
    for rustc in "${RUSTC:-rustc}" /usr/bin/rustc; do
        library=$("$rustc" --print target-libdir --target "$target" 2>/dev/null) || continue
        if [ -d "$library" ]; then return 0; fi
    done
    return 1
}

# build_rust NAME MODULE: the module of the crate NAME over the crate shim.
build_rust() {
    flags="--edition 2021 --target $target -C target-cpu=mvp -C opt-level=2 -C codegen-units=1"
    "$rustc" $flags --crate-type rlib --crate-name shim -o "$room/libshim.rlib" shim/src/lib.rs
    "$rustc" $flags --crate-type cdylib --crate-name "$1" --extern shim="$room/libshim.rlib" \
        -C lto -C strip=symbols -C link-arg=-zstack-size=8192 -C link-arg=--compress-relocations \
        -o "$2.wasm" "$1/src/lib.rs"
}

build asset_register -Oz
build asset_register_2 -Oz
build sort -O2
build sha256 -O2
wat2wasm fibonacci.wat -o fibonacci.wasm

built_all=true
if find_rustc wasm32v1-none || find_rustc wasm32-unknown-unknown; then
    build_rust asset_register asset_register_rust
else
    echo "asset_register_rust is not built: no rustc has a target of WebAssembly. Install rustc" \
        "and libstd-rust-dev-wasm32, or by rustup the target wasm32v1-none." >&2
    built_all=false
fi

# All keep to profile 1, which code of a compiler's own library might not.
for module in *.wasm; do
    wasm-validate --disable-sign-extension --disable-bulk-memory --disable-multi-value \
        --disable-saturating-float-to-int --disable-reference-types --disable-simd "$module"
done
$built_all
