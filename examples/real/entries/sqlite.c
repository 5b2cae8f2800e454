/* SQLite without floats: runs the input, a script of SQL, on a database in memory. Writes the rows that it selects. */
#include "entry.h"

#include <sqlite3.h>

/* A file system without files, and without a clock. */

static int no_file(sqlite3_vfs *system, const char *path, sqlite3_file *file, int flags, int *out) {
  (void)system, (void)path, (void)flags, (void)out;
  file->pMethods = NULL;
  return SQLITE_CANTOPEN;
}

static int no_access(sqlite3_vfs *system, const char *path, int flags, int *result) {
  (void)system, (void)path, (void)flags;
  *result = 0;
  return SQLITE_OK;
}

static int no_delete(sqlite3_vfs *system, const char *path, int syncs) { return (void)system, (void)path, (void)syncs, SQLITE_OK; }

static int full_path(sqlite3_vfs *system, const char *path, int room, char *full) {
  (void)system;
  sqlite3_snprintf(room, full, "%s", path);
  return SQLITE_OK;
}

static int zeros(sqlite3_vfs *system, int size, char *to) { return (void)system, memset(to, 0, (size_t)size), size; }
static int sleeps(sqlite3_vfs *system, int microseconds) { return (void)system, microseconds; }
static int no_time(sqlite3_vfs *system, double *time) { return (void)system, memset(time, 0, sizeof *time), SQLITE_OK; }
static int no_error(sqlite3_vfs *system, int room, char *text) { return (void)system, (void)room, (void)text, 0; }

int sqlite3_os_init(void) {
  static sqlite3_vfs system = {
      .iVersion = 1,
      .szOsFile = sizeof(sqlite3_file),
      .mxPathname = 64,
      .zName = "none",
      .xOpen = no_file,
      .xDelete = no_delete,
      .xAccess = no_access,
      .xFullPathname = full_path,
      .xRandomness = zeros,
      .xSleep = sleeps,
      .xCurrentTime = no_time,
      .xGetLastError = no_error,
  };
  return sqlite3_vfs_register(&system, 1);
}

int sqlite3_os_end(void) { return SQLITE_OK; }

static int write_row(void *context, int count, char **values, char **names) {
  (void)context, (void)names;
  for (int i = 0; i < count; i++) {
    write_text(values[i] ? values[i] : "NULL");
    write_text(i + 1 < count ? "|" : "\n");
  }
  return 0;
}

int run(int mode) {
  if (mode != FORTH) return NO_SUCH_MODE;
  struct bytes input = read_input();
  sqlite3 *database;
  if (!input.at || sqlite3_open(":memory:", &database) != SQLITE_OK) return out_of_memory();
  int status = 0;
  if (sqlite3_exec(database, (const char *)input.at, write_row, NULL, NULL) != SQLITE_OK) status = fail(REFUSED, sqlite3_errmsg(database));
  sqlite3_close(database);
  free(input.at);
  return status;
}
