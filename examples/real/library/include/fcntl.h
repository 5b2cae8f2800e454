/* Declared for sources that name them, and not defined: there are no files. */
#ifndef LIBRARY_FCNTL_H
#define LIBRARY_FCNTL_H
#define O_RDONLY 0
#define O_WRONLY 1
#define O_CREAT 0100
#define O_EXCL 0200
#define O_TRUNC 01000
int open(const char *path, int flags, ...);
#endif
