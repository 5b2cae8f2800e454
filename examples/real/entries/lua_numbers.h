/* Read before each file of Lua: makes its numbers integers of 64 bits, and ends the program at an error, as there is no longjmp. */
#define LUA_CORE
#include <ctype.h>
#include <errno.h>
#include <limits.h>
#include <locale.h>
#include <luaconf.h>
#include <math.h>
#include <setjmp.h>
#include <stdarg.h>
#include <stddef.h>
#include <stdio.h>
#include <stdlib.h>
#include <string.h>

#undef LUA_NUMBER_DOUBLE
#undef LUA_NUMBER
#define LUA_NUMBER long long
#undef LUAI_UACNUMBER
#define LUAI_UACNUMBER long long
#undef LUA_NUMBER_SCAN
#define LUA_NUMBER_SCAN "%lld"
#undef LUA_NUMBER_FMT
#define LUA_NUMBER_FMT "%lld"
#undef LUA_INTFRMLEN
#define LUA_INTFRMLEN "ll"
#undef LUA_INTFRM_T
#define LUA_INTFRM_T long long
#undef lua_str2number
#define lua_str2number(text, end) strtoll((text), (end), 10)

/* Sums wrap, and a division by zero is zero. */
#define UNSIGNED(number) ((unsigned long long)(number))
#undef luai_numadd
#define luai_numadd(a, b) ((long long)(UNSIGNED(a) + UNSIGNED(b)))
#undef luai_numsub
#define luai_numsub(a, b) ((long long)(UNSIGNED(a) - UNSIGNED(b)))
#undef luai_nummul
#define luai_nummul(a, b) ((long long)(UNSIGNED(a) * UNSIGNED(b)))
#undef luai_numunm
#define luai_numunm(a) ((long long)-UNSIGNED(a))
#undef luai_numdiv
#define luai_numdiv(a, b) lua_quotient((a), (b))
#undef luai_nummod
#define luai_nummod(a, b) luai_numsub((a), luai_nummul(lua_quotient((a), (b)), (b)))
#undef luai_numpow
#define luai_numpow(a, b) lua_power((a), (b))

static inline long long lua_quotient(long long a, long long b) { return b == -1 ? luai_numunm(a) : b ? a / b : 0; }

static inline long long lua_power(long long a, long long b) {
  long long power = 1;
  for (; b > 0; b--) power = luai_nummul(power, a);
  return power;
}

/* Ends the program with the error at the top of the stack. */
struct lua_State;
_Noreturn void lua_ends(struct lua_State *state, int status);
#undef LUAI_TRY
#define LUAI_TRY(state, place, action) { action }
#undef LUAI_THROW
#define LUAI_THROW(state, place) lua_ends((state), (place)->status)

/* What is left are casts for formats of floats. The C library of modules traps at these formats. */
#define double long long
