/* Preloaded into a program: its request for memory with the number FAIL, counted from 1, is refused, and with FAIL_ALL
   each later one as well. At the end the number of requests is written to the file that COUNT names. */
#include <fcntl.h>
#include <stdio.h>
#include <stdlib.h>
#include <unistd.h>

extern void *__libc_malloc(size_t bytes);
extern void *__libc_realloc(void *place, size_t bytes);

static unsigned long requests, refused;
static int refuses_all;

__attribute__((constructor)) static void begin(void) {
    const char *fail = getenv("FAIL");
    refused = fail ? strtoul(fail, 0, 10) : 0;
    refuses_all = getenv("FAIL_ALL") != 0;
    requests = 0;
}

__attribute__((destructor)) static void end(void) {
    const char *name = getenv("COUNT");
    int file = name ? open(name, O_WRONLY | O_CREAT | O_TRUNC, 0600) : -1;
    if (file >= 0) {
        dprintf(file, "%lu\n", requests);
        close(file);
    }
}

static int is_refused(void) {
    requests += 1;
    return refused && (requests == refused || (refuses_all && requests > refused));
}

void *malloc(size_t bytes) { return is_refused() ? 0 : __libc_malloc(bytes); }

void *realloc(void *place, size_t bytes) { return is_refused() ? 0 : __libc_realloc(place, bytes); }
