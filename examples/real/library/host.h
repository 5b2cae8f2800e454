/* The three functions of the host, and how the host calls the module.

   As a module, a program imports those that it uses from `host`, and exports `run` and its memory. As a native program, entries/native.c
   provides them. The linker wants the attributes in every file that calls them. */
#ifndef HOST_H
#define HOST_H
#include <stddef.h>

#ifdef __wasm__
#define IMPORT(name) __attribute__((import_module("host"), import_name(name)))
#define EXPORT(name) __attribute__((export_name(name)))
#else
#define IMPORT(name)
#define EXPORT(name)
#endif

/* Reads up to `size` bytes of the input. Returns how many they are: fewer only at its end. */
IMPORT("read") size_t host_read(void *to, size_t size);

/* Writes bytes of the output. */
IMPORT("write") void host_write(const void *from, size_t size);

/* Ends the program with a status. */
IMPORT("exit") _Noreturn void host_exit(int status);

/* Runs the program in one of its modes. Returns its status: 0, or another number after an error of the program. */
EXPORT("run") int run(int mode);
#endif
