#!/bin/sh
# Refuses the program `rdp_host` one growth of its memory after the other, on scripts, on the sample client and on links of the mode serve, and
# looks how each run ends: bench/refused_memory.py says what is wanted. The program is the proved one; a small library that is loaded before
# the C library stands in for its allocator, and answers a growth that is to be refused as one for which the system has no memory. (`rt try
# --fail-alloc N` does it for one N, to a program that it builds anew and doesn't prove.)
#
# usage: sh bench/refused_memory.sh      (it needs cc, python3 and Linux's loader)
bench=refused_memory
. "$(dirname "$0")/programs.sh"
needs "$rdp_host"

cat >"$work/refuse.c" <<'C'
/* malloc and realloc, of which the call of the number REFUSE is refused, and with REFUSE_ALL each later one: of those that the program itself
   makes, not the C library. A refusal leaves the file REFUSED. */
#define _GNU_SOURCE
#include <dlfcn.h>
#include <errno.h>
#include <fcntl.h>
#include <link.h>
#include <stdatomic.h>
#include <stdint.h>
#include <stdlib.h>
#include <unistd.h>

static void *(*next_malloc)(size_t);
static void *(*next_realloc)(void *, size_t);
static atomic_long calls;
static long refuse;
static int refuse_all;
static uintptr_t program_from, program_to;

/* The program is the first of the loaded objects. */
static int find_program(struct dl_phdr_info *info, size_t size, void *data) {
    for (int i = 0; i < info->dlpi_phnum; i++)
        if (info->dlpi_phdr[i].p_type == PT_LOAD && info->dlpi_phdr[i].p_flags & PF_X) {
            program_from = info->dlpi_addr + info->dlpi_phdr[i].p_vaddr;
            program_to = program_from + info->dlpi_phdr[i].p_memsz;
        }
    return 1;
}

__attribute__((constructor)) static void begin(void) {
    next_malloc = dlsym(RTLD_NEXT, "malloc");
    next_realloc = dlsym(RTLD_NEXT, "realloc");
    dl_iterate_phdr(find_program, NULL);
    if (getenv("REFUSE")) refuse = atol(getenv("REFUSE"));
    if (getenv("REFUSE_ALL")) refuse_all = atoi(getenv("REFUSE_ALL"));
}

static int is_refused(void *caller) {
    if ((uintptr_t)caller < program_from || (uintptr_t)caller >= program_to) return 0;
    long call = atomic_fetch_add(&calls, 1) + 1;
    if (refuse == 0 || (refuse_all ? call < refuse : call != refuse)) return 0;
    const char *name = getenv("REFUSED");
    int file = name ? open(name, O_CREAT | O_WRONLY, 0600) : -1;
    if (file >= 0) close(file);
    errno = ENOMEM;
    return 1;
}

void *malloc(size_t size) {
    if (!next_malloc) next_malloc = dlsym(RTLD_NEXT, "malloc");
    return is_refused(__builtin_return_address(0)) ? NULL : next_malloc(size);
}

void *realloc(void *old, size_t size) {
    if (!next_realloc) next_realloc = dlsym(RTLD_NEXT, "realloc");
    return is_refused(__builtin_return_address(0)) ? NULL : next_realloc(old, size);
}
C
cc -O1 -shared -fPIC -o "$work/refuse.so" "$work/refuse.c" -ldl
[ ! -r /proc/loadavg ] || echo "load before: $(cut -d ' ' -f 1-3 /proc/loadavg), of $(nproc) processors; $(date -u '+%Y-%m-%d %H:%M') UTC"
echo '| run | a growth is refused | growths | status 6 | a link of code 6 | all is done |'
echo '|---|---|---:|---:|---:|---:|'
python3 "$here/bench/refused_memory.py" "$rdp_host" "$work/refuse.so" "$work"
