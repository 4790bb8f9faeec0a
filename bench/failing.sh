#!/usr/bin/env bash
# Runs the built program over small scripts again and again; each time one call fails: first each call for memory in turn, then each
# call on the input, the output and the files; and then each read or write of several bytes moves one byte. A run in which a call
# failed must end with the status for it and a front of the whole run's output (and the line of the fault where its status has
# one), or as the whole run does; one in which a call moved one byte must end as the whole run does. Prints for each script what
# the runs came to. Where a run makes more than 5,000 calls for memory, the first 1,600, the last 20 and 100 between are tried.
# Wants the program built (./aql builds it), a C compiler and Python 3; run it from anywhere.
set -eu
top=$(cd "$(dirname "$0")/.." && pwd)
program="$top/crates/aql/out/aql"
test -x "$program" || { echo "build the program first: ./aql < examples/first.aql" >&2; exit 1; }
work=$(mktemp -d)
trap 'rm -rf "$work"' EXIT
cat > "$work/fail.c" <<'CALLS'
// Counts the calls for memory and on descriptors, and has the one of a given number fail or move one byte.
#define _GNU_SOURCE
#include <dlfcn.h>
#include <errno.h>
#include <fcntl.h>
#include <stdarg.h>
#include <stdatomic.h>
#include <stdio.h>
#include <stdlib.h>
#include <sys/stat.h>
#include <unistd.h>

static atomic_long allocations, calls, moves;
static long fail_allocation, fail_call, shorten_move;
static int counts;

static long number(const char *name) {
    const char *text = getenv(name);
    return text ? atol(text) : 0;
}

__attribute__((constructor)) static void begin(void) {
    fail_allocation = number("FAIL_ALLOCATION");
    fail_call = number("FAIL_CALL");
    shorten_move = number("SHORTEN_MOVE");
    counts = 1;
}

static int is_it(atomic_long *count, long wanted) {
    return counts && atomic_fetch_add(count, 1) + 1 == wanted;
}

#define REAL(type, name, ...) static type (*real)(__VA_ARGS__); if (!real) real = dlsym(RTLD_NEXT, #name)
#define FAIL(count, wanted, error, answer) if (is_it(&count, wanted)) { errno = error; return answer; }

void *malloc(size_t size) {
    REAL(void *, malloc, size_t);
    FAIL(allocations, fail_allocation, ENOMEM, 0)
    return real(size);
}

void *realloc(void *old, size_t size) {
    REAL(void *, realloc, void *, size_t);
    FAIL(allocations, fail_allocation, ENOMEM, 0)
    return real(old, size);
}

ssize_t read(int from, void *into, size_t size) {
    REAL(ssize_t, read, int, void *, size_t);
    FAIL(calls, fail_call, EIO, -1)
    return real(from, into, size > 1 && is_it(&moves, shorten_move) ? 1 : size);
}

ssize_t write(int to, const void *from, size_t size) {
    REAL(ssize_t, write, int, const void *, size_t);
    if (to == 2) return real(to, from, size);
    FAIL(calls, fail_call, EIO, -1)
    return real(to, from, size > 1 && is_it(&moves, shorten_move) ? 1 : size);
}

int open(const char *path, int flags, ...) {
    REAL(int, open, const char *, int, ...);
    va_list rest;
    va_start(rest, flags);
    int mode = va_arg(rest, int);
    va_end(rest);
    FAIL(calls, fail_call, EIO, -1)
    return real(path, flags, mode);
}

off_t lseek(int file, off_t by, int from) {
    REAL(off_t, lseek, int, off_t, int);
    FAIL(calls, fail_call, EIO, -1)
    return real(file, by, from);
}

int statx(int at, const char *path, int flags, unsigned mask, struct statx *into) {
    REAL(int, statx, int, const char *, int, unsigned, struct statx *);
    FAIL(calls, fail_call, EIO, -1)
    return real(at, path, flags, mask, into);
}

void _exit(int status) {
    REAL(void, _exit, int);
    counts = 0;
    if (getenv("COUNTS")) {
        FILE *out = fopen(getenv("COUNTS"), "w");
        fprintf(out, "%ld %ld %ld\n", (long)allocations, (long)calls, (long)moves);
        fclose(out);
    }
    for (;;) real(status);
}
CALLS
cc -O2 -shared -fPIC -o "$work/fail.so" "$work/fail.c" -ldl
cp "$top/examples/sst.nc" "$top/examples/stations.csv" "$work"
cd "$work"
python3 - "$program" <<'RUNS'
import collections
import os
import subprocess
import sys
from concurrent.futures import ThreadPoolExecutor

program = sys.argv[1]
scripts = {
    "set": (r"{x*x | \x <- gen!4};", []),
    "macro": (r"macro \f = fn \a => {a+b | \b <- gen!2}; {x | \b <- gen!3, \x <- f!b};", []),
    "hyperslab": (r'readval \T using NETCDFZ3 at ("sst.nc","sst",(0,0,1),(2,3,2)); {h | [(\h,_,_):(false,_)] <- T};', []),
    "file fault": (r'readval \L using NETCDF1 at ("sst.nc","none",0,2);', []),
    "table": (r'readval \S using CSVHSNN at "stations.csv"; {i | (_,\i,_) <- S};', []),
    "record fault": (r'readval \S using CSVN at "stations.csv";', []),
    "spent": (r"summap(fn \x => x)!(gen!5000000);", ["--budget", "1000"]),
    "sum": (r"summap(fn \x => x)!(gen!5000000);", ["--budget", "10000000", "--workers", "1"]),
    "workers": (r"summap(fn \x => x)!(gen!5000000);", ["--budget", "10000000", "--workers", "8"]),
}


def run(name, settings):
    script, words = scripts[name]
    env = {"LD_PRELOAD": os.path.abspath("fail.so"), **settings}
    ran = subprocess.run([program, *words], input=script.encode(), capture_output=True, env=env, timeout=600)
    return ran.returncode, ran.stdout


def is_front(written, whole, line):
    return written.endswith(line) and whole.startswith(written[: len(written) - len(line)])


def is_right(kind, status, written, whole_status, whole):
    if (status, written) == (whole_status, whole):
        return True
    if kind == "SHORTEN_MOVE":
        return False
    if kind == "FAIL_ALLOCATION":
        return status == 1 and is_front(written, whole, b"")
    lines = {10: b"fault input\n", 11: b"", 13: b"fault files\n"}
    return status in lines and is_front(written, whole, lines[status])


wrong = 0
for name in scripts:
    whole_status, whole = run(name, {"COUNTS": "counts"})
    numbers = [int(it) for it in open("counts").read().split()]
    for kind, count in zip(("FAIL_ALLOCATION", "FAIL_CALL", "SHORTEN_MOVE"), numbers):
        tried = range(1, count + 1)
        if count > 5000:
            tried = [*range(1, 1601), *range(1601, count - 20, count // 100), *range(count - 19, count + 1)]
        ends = collections.Counter()
        with ThreadPoolExecutor(os.cpu_count()) as pool:
            for status, written in pool.map(lambda n: run(name, {kind: str(n)}), tried):
                ends[status] += 1
                wrong += not is_right(kind, status, written, whole_status, whole)
        told = ", ".join(f"{ends[status]} ended with {status}" for status in sorted(ends))
        print(f"{name}: status {whole_status}; {kind.lower().replace('_', ' ')}: {len(tried)} of {count} calls tried: {told}", flush=True)
print(f"{wrong} runs ended otherwise than they may")
sys.exit(wrong > 0)
RUNS
