#pragma once
#include <stddef.h>
_Noreturn void abort(void);
_Noreturn void exit(int);
unsigned long long strtoull(const char *, char **, int);
