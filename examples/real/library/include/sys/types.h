/* Types of files. */
#ifndef LIBRARY_TYPES_H
#define LIBRARY_TYPES_H
#include <stddef.h>
typedef long ssize_t;
typedef long long off_t;
typedef long long time_t;
typedef int pid_t;
typedef unsigned mode_t;
#endif
