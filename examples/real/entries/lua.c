/* Lua with integers: runs the input, a script. The libraries are those of the language, of strings and of tables. */
#include <lua.h>
#include <lauxlib.h>
#include <lualib.h>

#include "entry.h"

void lua_ends(lua_State *state, int status) {
  const char *message = status == LUA_ERRMEM ? NULL : lua_tostring(state, -1);
  exit(status == LUA_ERRMEM ? out_of_memory() : fail(REFUSED, message ? message : "no text"));
}

static void open(lua_State *state, lua_CFunction library) {
  lua_pushcfunction(state, library);
  lua_call(state, 0, 0);
}

int run(int mode) {
  if (mode != FORTH) return NO_SUCH_MODE;
  struct bytes input = read_input();
  lua_State *state = luaL_newstate();
  if (!input.at || !state) return out_of_memory();
  open(state, luaopen_base);
  open(state, luaopen_string);
  open(state, luaopen_table);
  luaL_loadbuffer(state, (const char *)input.at, input.size, "=input");
  lua_pcall(state, 0, 0, 0); /* without a protected call, errors go to a function that writes them to standard error */
  lua_close(state);
  return 0;
}
