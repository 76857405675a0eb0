#!/usr/bin/env bash
# The stored jobs and what is due for them are what the second implementation writes. Its products are in target/stored.
# `tests/stored.sh --renew` writes them anew.
set -u
cd "$(dirname "$0")/.." || exit 2

jobs=crates/replay/data/jobs
expected=crates/replay/stdout

fail() {
  printf 'stored.sh: FAILED: %s\n' "$1" >&2
  exit 1
}

case "$#:${1-}" in
  0:) ;;
  1:--renew) ;;
  *) printf 'usage: tests/stored.sh [--renew]\n' >&2; exit 2 ;;
esac

cargo build --quiet --release --offline --manifest-path second/Cargo.toml || fail 'the second implementation does not build'
mkdir -p target/stored || fail 'target/stored cannot be made'
second/target/release/second store target/stored || fail "'second store' does not run"
if [ "${1-}" = --renew ]; then
  cp target/stored/jobs "$jobs" && cp target/stored/expected "$expected" || fail 'the files cannot be copied'
fi
cmp target/stored/jobs "$jobs" || fail "$jobs is not what 'second store' writes"
cmp target/stored/expected "$expected" || fail "$expected is not what 'second store' writes"
printf "stored.sh: ok, the stored jobs and what is due for them are what 'second store' writes\n"
