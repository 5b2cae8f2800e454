/* Comparing texts of ASCII without regard to case. */
#ifndef LIBRARY_STRINGS_H
#define LIBRARY_STRINGS_H
#include <stddef.h>
int strcasecmp(const char *left, const char *right);
int strncasecmp(const char *left, const char *right, size_t most);
#endif
