/* Files: standard input and output are those of the host, and no other file opens. */
#include <stdio.h>
#include <string.h>

#include "host.h"

size_t fwrite(const void *from, size_t size, size_t count, FILE *file) {
  if (file == stdout) host_write(from, size * count);
  return count;
}

size_t fread(void *to, size_t size, size_t count, FILE *file) { return file == stdin && size ? host_read(to, size * count) / size : 0; }
int fputs(const char *text, FILE *file) { return (int)fwrite(text, 1, strlen(text), file); }
int puts(const char *text) { return fputs(text, stdout) + putchar('\n'); }
int fputc(int character, FILE *file) { return fwrite(&(char){(char)character}, 1, 1, file) ? character : EOF; }
int putchar(int character) { return fputc(character, stdout); }
int fflush(FILE *file) { return (void)file, 0; }
int fclose(FILE *file) { return (void)file, 0; }

int getc(FILE *file) {
  unsigned char character;
  return fread(&character, 1, 1, file) ? character : EOF;
}

int ungetc(int character, FILE *file) { return (void)character, (void)file, EOF; }
FILE *fopen(const char *path, const char *mode) { return (void)path, (void)mode, NULL; }
FILE *freopen(const char *path, const char *mode, FILE *file) { return (void)path, (void)mode, (void)file, NULL; }
int ferror(FILE *file) { return (void)file, 0; }
int feof(FILE *file) { return file != stdin; }
