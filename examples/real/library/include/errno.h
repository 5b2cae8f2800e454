/* The number of the last error, and the numbers that the programs name. */
#ifndef LIBRARY_ERRNO_H
#define LIBRARY_ERRNO_H
extern int errno;
#define ENOENT 2
#define EIO 5
#define ENOMEM 12
#define EINVAL 22
#define ERANGE 34
#endif
