/* Declared for sources that name them, and not defined: there are no files. */
#ifndef LIBRARY_STAT_H
#define LIBRARY_STAT_H
#include <sys/types.h>
#define S_IREAD 0400
#define S_IWRITE 0200
#endif
