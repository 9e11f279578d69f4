#!/bin/sh
# Builds the store's static library and every bench, runs them all, and prints markdown.
set -eu
cd "$(dirname "$0")/.."

for library in sqlite3 lmdb; do
    if ! echo "#include <$library.h>" | cc -E -x c - > /dev/null 2>&1; then
        echo "bench/run.sh: $library.h is missing: apt-get install libsqlite3-dev liblmdb-dev" >&2
        exit 1
    fi
done

tools/staticlib.sh
mkdir -p target/bench
build() { # NAME, then its sources, then the libraries that it needs
    name=$1
    shift
    cc -O2 -Wall -Wextra -Iinclude -o "target/bench/$name" "$@"
}
store=target/staticlib/libstore.a
build calls bench/calls.c bench/engines.c bench/crossing.c bench/list.c bench/split.c bench/hours.c bench/log.c bench/checkpoint.c $store -lsqlite3 -llmdb

target/bench/calls
