/* The type alone, for sources that have a place for it: a module cannot jump out of a function. */
#ifndef LIBRARY_SETJMP_H
#define LIBRARY_SETJMP_H
typedef int jmp_buf[1];
#endif
