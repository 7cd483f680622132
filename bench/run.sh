#!/bin/sh
# Compares the proved rules with plain Rust, replies and speed: proves and builds `facade`, builds the harness, runs it.
# Needs rt and rustc. See README.md here.
set -eu
cd "$(dirname "$0")/.."
kit=$(dirname "$(rt doc)")
mkdir -p bench/target
(cd crates/facade && rt lib) >bench/target/facade.log 2>&1 || { cat bench/target/facade.log; exit 1; }
rustc --edition 2024 -C opt-level=3 -C codegen-units=1 -C panic=abort \
    -L crates/facade/out -L "$kit/c" -l static=facade -l static=libc_c \
    -C link-arg=-Wl,--wrap=malloc,--wrap=calloc,--wrap=realloc \
    -o bench/target/compare bench/main.rs
exec bench/target/compare "$@"
