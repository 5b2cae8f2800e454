/* Types of times. There is no clock, and no calendar. */
#ifndef LIBRARY_TIME_H
#define LIBRARY_TIME_H
#include <sys/types.h>
#define CLOCKS_PER_SEC 1000000
typedef long clock_t;
struct tm {
  int tm_sec, tm_min, tm_hour, tm_mday, tm_mon, tm_year, tm_wday, tm_yday, tm_isdst;
};
static inline struct tm *gmtime(const time_t *time) { return (void)time, (struct tm *)0; }
static inline size_t strftime(char *to, size_t room, const char *format, const struct tm *time) {
  return (void)to, (void)room, (void)format, (void)time, (size_t)0;
}
#endif
