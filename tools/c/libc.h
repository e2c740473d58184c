/* The few functions used of the C library, which the kit links but has no headers for. */
#ifndef LIBC_H
#define LIBC_H

#include <stddef.h>

int printf(const char *format, ...) __attribute__((format(printf, 1, 2)));
int memcmp(const void *a, const void *b, size_t bytes);
void *memcpy(void *to, const void *from, size_t bytes);
void *memmove(void *to, const void *from, size_t bytes);
void *memset(void *to, int byte, size_t bytes);
char *strchr(const char *text, int letter);
size_t strlen(const char *text);
long read(int file, void *to, size_t bytes);
long write(int file, const void *from, size_t bytes);
int fflush(void *all);
unsigned long long strtoull(const char *text, char **end, int base);

/* ---- Linux on x86-64 ---- */

enum { PROT_READ = 1, PROT_WRITE = 2, MAP_PRIVATE = 0x02, MAP_FIXED = 0x10, MAP_ANONYMOUS = 0x20, MAP_NORESERVE = 0x4000 };
#define MAP_FAILED ((void *)-1)

void *mmap(void *place, size_t bytes, int protection, int flags, int file, long offset);
int munmap(void *place, size_t bytes);

enum { CLOCK_PROCESS_CPUTIME_ID = 2 };

struct timespec {
    long tv_sec, tv_nsec;
};

int clock_gettime(int clock, struct timespec *time);

#endif
