#!/bin/sh
# How fast MessagePack is cut and requests are read, beside msgpuck's mp_check (Tarantool's scanner, written in C).
#
#     sh bench/scan.sh [TURNS [MEGABYTES]]
#
# Run at the top of the repository, on a quiet machine. It needs Debian's python3-msgpack and libmsgpuck-dev, which it
# installs where they are absent, and cc. It proves and builds crates/relay_scripts, unless MEASURES names a built
# program (the gate leaves one at crates/relay_scripts/out/relay_scripts), writes streams to a folder that it removes in
# the end, and prints one line a stream: MB/s of the fastest of five times TURNS turns (a MB is 10^6 bytes), and the
# ratio to mp_check's.
#
# read_request is measured over values that were cut beforehand, so that its figure is its own. Then the same streams in
# pieces of 65,536 and of 1,448 bytes: through a scanner (feed), and through a connection (hear).
#
# packed_forward: mp_check and cut go over the packed entries as one bin, in no time; read_request goes over each entry. So
# there its speed is compared with mp_check's over the entries alone, the line packed_entries (whose values are no requests).
set -eu

turns=${1:-20}
megabytes=${2:-20}

/usr/bin/python3 -c 'import msgpack' 2>/dev/null && [ -f /usr/include/msgpuck.h ] || {
    apt-get update -q && apt-get install -qy python3-msgpack libmsgpuck-dev
} >&2

bench=${MEASURES:-}
[ -n "$bench" ] || {
    (cd crates/relay_scripts && rt run -- values count cut 1 - <stdin >/dev/null)
    bench=$PWD/crates/relay_scripts/out/relay_scripts
}

folder=$(mktemp -d)
trap 'rm -rf "$folder"' EXIT

cat >"$folder/check.c" <<'END'
#define _POSIX_C_SOURCE 200809L
#include <msgpuck.h>
#include <stdio.h>
#include <stdlib.h>
#include <time.h>

__attribute__((noinline)) static long check_all(const char *at, const char *end) {
    long values = 0;
    while (at < end && mp_check(&at, end) == 0)
        values++;
    return values;
}

static double now(void) {
    struct timespec t;
    clock_gettime(CLOCK_MONOTONIC, &t);
    return t.tv_sec + t.tv_nsec / 1e9;
}

int main(int argc, char **argv) {
    FILE *file = argc == 3 ? fopen(argv[2], "rb") : NULL;
    if (!file || fseek(file, 0, SEEK_END))
        return 1;
    size_t len = ftell(file);
    char *stream = malloc(len);
    rewind(file);
    if (!stream || fread(stream, 1, len, file) != len)
        return 1;
    double least = 1e9;
    long values = 0;
    for (int turn = 0; turn < atoi(argv[1]); turn++) {
        double start = now();
        values = check_all(stream, stream + len);
        double took = now() - start;
        if (took < least)
            least = took;
    }
    printf("values %ld\n%.0f MB/s\n", values, len / least / 1e6);
    return 0;
}
END
cc -O2 -o "$folder/check" "$folder/check.c" -lmsgpuck
/usr/bin/python3 bench/streams.py "$folder" "$megabytes"

# the greatest speed that a program prints last in five runs: a run can be slower by a third and more where another process
# has the core's other thread
speed() {
    for _ in 1 2 3 4 5; do
        "$@" | tail -n 1 | cut -d ' ' -f 1
    done | sort -n | tail -n 1
}

echo "cores $(nproc), MB/s of the fastest of five times $turns turns over $megabytes MB"
printf '%-16s %10s %10s %7s %14s %7s\n' stream mp_check cut ratio read_request ratio
for stream in message forward packed_forward packed_entries; do
    peer=$(speed "$folder/check" "$turns" "$folder/$stream")
    cut=$(speed "$bench" values speed cut "$turns" "$folder/$stream")
    read=$(speed "$bench" values speed requests "$turns" "$folder/$stream")
    printf '%s %s %s %s\n' "$stream" "$peer" "$cut" "$read" |
        awk '{ printf "%-16s %10d %10d %7.2f %14d %7.2f\n", $1, $2, $3, $3 / $2, $4, $4 / $2 }'
    "$bench" values count requests 1 "$folder/$stream" | sed 's/^/    /'
done

# in pieces: a scanner that is fed, and a connection that hears, makes the requests and drops them. packed_entries are no
# requests, and end a connection
printf '%-16s %10s %10s %7s %10s %7s %10s %7s %10s %7s\n' stream mp_check feed:65536 ratio feed:1448 ratio hear:65536 ratio hear:1448 ratio
for stream in message forward packed_forward; do
    speed "$folder/check" "$turns" "$folder/$stream" >"$folder/peer"
    for way in feed:65536 feed:1448 hear:65536 hear:1448; do
        speed "$bench" values speed "$way" "$turns" "$folder/$stream"
    done | cat "$folder/peer" - | tr '\n' ' ' |
        awk -v stream="$stream" '{ printf "%-16s %10d", stream, $1; for (i = 2; i <= 5; i++) printf " %10d %7.2f", $i, $i / $1; print "" }'
done
