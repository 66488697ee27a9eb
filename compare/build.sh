#!/bin/sh
# build.sh CRATE_SRC OUT [RUSTC FLAGS..]
# Builds the crate thrift 0.25.0, unchanged, from CRATE_SRC (the folder with its lib.rs), and beside it this repository's Rust crate over
# target/staticlib/libtagrumzil.a (`tools/archive` makes it). What it makes stands in OUT. Needs rustc, and the two source packages of Debian
# librust-byteorder-dev and librust-uuid-dev: those in OUT/deb are used, and downloaded where they are not there (unpacked, not installed).
set -eu
HERE=$(cd "$(dirname "$0")" && pwd); SRC=$(cd "$1" && pwd); mkdir -p "$2"; OUT=$(cd "$2" && pwd); shift 2
LIB=${TAGRUMZIL_LIB:-$HERE/../target/staticlib}
[ -f "$LIB/libtagrumzil.a" ] || { echo "no $LIB/libtagrumzil.a: run 'tools/archive' first" >&2; exit 2; }
mkdir -p "$OUT/deb" "$OUT/root" "$OUT/thrift"; cd "$OUT"
( cd deb; for p in librust-byteorder-dev librust-uuid-dev; do
    ls $p*.deb >/dev/null 2>&1 || apt-get -qq -o APT::Sandbox::User=root download $p >/dev/null; done )
for d in deb/*.deb; do dpkg-deb -x "$d" root; done
cp -r "$SRC/." thrift/
cp "$HERE/standins/autogen.rs" thrift/autogen.rs
R="rustc -Awarnings --edition 2021 -C opt-level=3 $* --out-dir $OUT -L $OUT"
$R --crate-type rlib --crate-name byteorder --cfg 'feature="std"' root/usr/share/cargo/registry/byteorder-*/src/lib.rs
$R --crate-type rlib --crate-name uuid --cfg 'feature="std"' root/usr/share/cargo/registry/uuid-*/src/lib.rs
$R --crate-type rlib --crate-name varint_rs "$HERE/standins/varint_rs.rs"
$R --crate-type rlib --crate-name ordered_float "$HERE/standins/ordered_float.rs"
X="--extern byteorder=libbyteorder.rlib --extern uuid=libuuid.rlib"
$R --crate-name thrift $X --extern varint_rs=libvarint_rs.rlib --extern ordered_float=libordered_float.rlib thrift/lib.rs
$R --crate-type rlib --crate-name tagrumzil -L native="$LIB" -l static=tagrumzil --cfg 'feature="alloc"' "$HERE/../host/rust/src/lib.rs"
X="$X --extern thrift=libthrift.rlib --extern tagrumzil=libtagrumzil.rlib"
$R --crate-name compare $X "$HERE/compare.rs"
$R --crate-name adapter $X "$HERE/adapter.rs"
if [ -f "$HERE/../bench/bench.rs" ]; then $R --crate-name bench $X "$HERE/../bench/bench.rs"; fi
