#!/usr/bin/env bash
# Measures crc32c of xfs_word, in MB/s, beside a table loop that takes a byte at a time, compiled by
# gcc -O2, over the same 64 KiB again and again. Works in a copy of the repository, which it removes.
set -eu
top=$(cd "$(dirname "$0")/.." && pwd)
work=$(mktemp -d)
trap 'rm -rf "$work"' EXIT
mkdir -p "$work/repo/crates"
cp "$top/crates.txt" "$work/repo/"
cp -r "$top/crates/xfs_word" "$work/repo/crates/"
cd "$work/repo"
printf 'xfs_word: byteorder\n' > crates.txt
rt new crates/crc_speed start_io > "$work/new.log"
rm -rf crates/crc_speed/BUILD.bazel crates/crc_speed/stdin crates/crc_speed/stdout crates/crc_speed/src/*
printf 'xfs_word: byteorder\ncrc_speed: xfs_word\n' > crates.txt
cat > crates/crc_speed/src/main.rt <<'RT'
#![tactic(auto)]

use std::io;
use std::time::Instant;
use xfs_word::crc32c;

const ROUNDS: u32 = 16_384;

fn main(rt: HostRuntime) -> io::Result<()> {
    let mut bytes = vec![in rt.alloc(); 0; 65536]?;
    for (at, byte) in bytes.iter_mut().enumerate() {
        *byte = (at % 251) as u8;
    }
    let start = Instant::now(&rt)?;
    let mut sum = 0u32;
    for round in 0..ROUNDS {
        bytes[0] = (round % 256) as u8;
        sum ^= crc32c(&bytes);
    }
    let nanos = start.elapsed(&rt)?.as_nanos();
    println!(rt; "{sum:08x} {nanos}")
}
RT
(cd crates/crc_speed && rt fmt > "$work/fmt.log" && rt run > "$work/run.log" 2>&1 || { tail -20 "$work/run.log"; exit 1; })
cat > "$work/table.c" <<'C'
#include <stdint.h>
#include <stdio.h>
#include <time.h>
static uint32_t table[256];
static unsigned char bytes[65536];
__attribute__((noinline)) static uint32_t crc32c(const unsigned char *p, size_t n) {
    uint32_t r = 0xffffffff;
    while (n--) r = r >> 8 ^ table[(r ^ *p++) & 255];
    return ~r;
}
int main(void) {
    for (uint32_t i = 0; i < 256; i++) {
        uint32_t r = i;
        for (int k = 0; k < 8; k++) r = r >> 1 ^ (r & 1 ? 0x82f63b78 : 0);
        table[i] = r;
    }
    for (size_t i = 0; i < sizeof bytes; i++) bytes[i] = i % 251;
    struct timespec a, b;
    clock_gettime(CLOCK_MONOTONIC, &a);
    uint32_t sum = 0;
    for (uint32_t round = 0; round < 16384; round++) {
        bytes[0] = round % 256;
        sum ^= crc32c(bytes, sizeof bytes);
    }
    clock_gettime(CLOCK_MONOTONIC, &b);
    long long nanos = (b.tv_sec - a.tv_sec) * 1000000000LL + (b.tv_nsec - a.tv_nsec);
    printf("%08x %lld\n", sum, nanos);
}
C
gcc -O2 -o "$work/table" "$work/table.c"
for turn in 1 2 3; do
  ours=$(crates/crc_speed/out/crc_speed)
  table=$("$work/table")
  awk -v ours="$ours" -v table="$table" 'BEGIN {
    split(ours, o, " "); split(table, t, " ")
    if (o[1] != t[1]) { print "checksums differ: " o[1] " " t[1]; exit 1 }
    bytes = 65536 * 16384
    printf "crc32c %.0f MB/s, table loop %.0f MB/s, %.2f times as fast\n", bytes / o[2] * 1000, bytes / t[2] * 1000, t[2] / o[2]
  }'
done
