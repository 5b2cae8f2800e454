/* Formatted texts, without floats, and the input and output of the host. There are no other files: what opens one, or moves in it, is
   declared for sources that name it, and not defined. */
#ifndef LIBRARY_STDIO_H
#define LIBRARY_STDIO_H
#include <stdarg.h>
#include <stddef.h>
typedef struct library_file FILE;
#define EOF (-1)
#define BUFSIZ 1024
#define SEEK_SET 0
#define SEEK_CUR 1
#define SEEK_END 2
#define stdin ((FILE *)0)
#define stdout ((FILE *)1)
#define stderr ((FILE *)2)
int vsnprintf(char *to, size_t room, const char *format, va_list arguments);
int snprintf(char *to, size_t room, const char *format, ...) __attribute__((format(printf, 3, 4)));
int vsprintf(char *to, const char *format, va_list arguments);
int sprintf(char *to, const char *format, ...) __attribute__((format(printf, 2, 3)));
/* What goes to `stdout` is written to the host. What goes to another file is dropped. */
int vfprintf(FILE *file, const char *format, va_list arguments);
int fprintf(FILE *file, const char *format, ...) __attribute__((format(printf, 2, 3)));
int printf(const char *format, ...) __attribute__((format(printf, 1, 2)));
int puts(const char *text);
int fputs(const char *text, FILE *file);
int fputc(int character, FILE *file);
int putchar(int character);
size_t fwrite(const void *from, size_t size, size_t count, FILE *file);
int fflush(FILE *file);
int fclose(FILE *file);
/* `stdin` is read from the host. Another file is at its end. */
size_t fread(void *to, size_t size, size_t count, FILE *file);
int getc(FILE *file);
/* No file opens, and nothing is put back. */
int ungetc(int character, FILE *file);
FILE *fopen(const char *path, const char *mode);
FILE *freopen(const char *path, const char *mode, FILE *file);
int ferror(FILE *file);
int feof(FILE *file);
/* Declared only. */
FILE *fdopen(int descriptor, const char *mode);
char *fgets(char *to, int room, FILE *file);
int fseek(FILE *file, long offset, int from);
long ftell(FILE *file);
#endif
