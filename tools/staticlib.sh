#!/bin/sh
# Proves the store's calls for C and writes them as a static library, target/staticlib/libstore.a.
set -eu
cd "$(dirname "$0")/.."
(cd crates/store_c && rt lib >&2)
mkdir -p target/staticlib
cp crates/store_c/out/libstore_c.a target/staticlib/libstore.a
