/* Files and the clock. */
#include "bench.h"

#include <stdio.h>
#include <stdlib.h>
#include <string.h>
#include <sys/stat.h>
#include <time.h>
#include <unistd.h>

/* The path DIR/NAME, until the next call. */
static const char *path_in(const char *dir, const char *name) {
    static char path[4096];
    snprintf(path, sizeof path, "%s/%s", dir, name);
    return path;
}

static FILE *open_in(const char *dir, const char *name, const char *mode) {
    const char *path = path_in(dir, name);
    FILE *in = fopen(path, mode);
    if (!in) {
        perror(path);
        exit(2);
    }
    return in;
}

void read_file(file *f, const char *dir, const char *name) {
    FILE *in = open_in(dir, name, "rb");
    f->len = fread(f->bytes, 1, FILE_LEN, in);
    fclose(in);
}

static secpal_slice read_slice(file *f, const char *dir, const char *name) {
    read_file(f, dir, name);
    return (secpal_slice){f->bytes, f->len};
}

/* Entries may be left out. */
static secpal_slice read_entries(file *f, const char *dir, const char *name) {
    return access(path_in(dir, name), F_OK) == 0 ? read_slice(f, dir, name) : no_entries;
}

slices read_slices(const char *dir) {
    static file policy, request, withdrawals, hierarchy;
    return (slices){read_slice(&policy, dir, "policy.bin"), read_slice(&request, dir, "request.bin"),
                    read_entries(&withdrawals, dir, "withdrawals.bin"), read_entries(&hierarchy, dir, "hierarchy.bin")};
}

void write_file(const char *dir, const char *name, const uint8_t *bytes, size_t len) {
    mkdir(dir, 0777);
    FILE *out = open_in(dir, name, "wb");
    size_t written = fwrite(bytes, 1, len, out);
    if (fclose(out) != 0 || written != len) {
        perror(name);
        exit(2);
    }
}

const char *base_name(const char *path) {
    const char *slash = strrchr(path, '/');
    return slash ? slash + 1 : path;
}

double clock_ms(void) {
    struct timespec t;
    clock_gettime(CLOCK_PROCESS_CPUTIME_ID, &t);
    return (double)t.tv_sec * 1e3 + (double)t.tv_nsec / 1e6;
}
