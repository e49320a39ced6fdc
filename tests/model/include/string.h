#pragma once
#include <stddef.h>
int memcmp(const void *, const void *, size_t);
size_t strlen(const char *);
void *memchr(const void *, int, size_t);
void *memcpy(void *, const void *, size_t);
void *memmove(void *, const void *, size_t);
void *memset(void *, int, size_t);
