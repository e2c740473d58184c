/* The kit's clang comes without the C library's headers: what the examples use of <stdio.h>. */
#ifndef STDIO_H
#define STDIO_H

#ifdef __cplusplus
extern "C" {
#endif

int printf(const char *format, ...) __attribute__((format(printf, 1, 2)));
int putchar(int letter);

#ifdef __cplusplus
}
#endif

#endif
