/* Declared for sources that name them, and not defined: there are no files. */
#ifndef LIBRARY_UNISTD_H
#define LIBRARY_UNISTD_H
#include <sys/types.h>
int close(int descriptor);
int unlink(const char *path);
#endif
