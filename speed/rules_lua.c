/* The rules in Lua 5.4 and, with -DJIT, in LuaJIT, whose numbers are doubles; blank is nil. */
#include "rules.h"
#include <lauxlib.h>
#include <lua.h>
#include <lualib.h>
#include <stdio.h>
#include <stdlib.h>

#ifdef JIT
#define QUOTIENT(a, b) "floor(" a " / " b ")"
#else
#define QUOTIENT(a, b) a " // " b
#endif
#define CUT(a, b) a " < 0 and -(" QUOTIENT("-" a, b) ") or " QUOTIENT(a, b)
#define OUTSIDE(a) a " < -2147483648 or " a " > 2147483647"

static const char *const source[RULES] = {
    "local floor = math.floor\n"
    "return function(a, b, c)\n"
    "  if a == nil or b == nil or c == nil then return nil end\n"
    "  local s = a + b\n"
    "  if " OUTSIDE("s") " then return nil end\n"
    "  s = s + c\n"
    "  if " OUTSIDE("s") " then return nil end\n"
    "  return " CUT("s", "3") "\n"
    "end",

    "local t = 0\n"
    "return function(a, b)\n"
    "  t = t + 1\n"
    "  if a == nil or b == nil then return nil end\n"
    "  local s\n"
    "  if t % 2 == 1 then s = a - b else s = a + b end\n"
    "  if " OUTSIDE("s") " then return nil end\n"
    "  return s\n"
    "end",

    "local floor = math.floor\n"
    "return function(erase, bits, spare)\n"
    "  local wear, class, alarm\n"
    "  if erase ~= nil then\n"
    "    local p = erase * 100\n"
    "    if not (" OUTSIDE("p") ") then wear = " CUT("p", "3000") " end\n"
    "  end\n"
    "  if spare ~= nil then\n"
    "    if spare < 4 then class = 3\n"
    "    elseif (wear ~= nil and wear > 89) or (bits ~= nil and bits > 40) then class = 2\n"
    "    elseif wear ~= nil and bits ~= nil then\n"
    "      if wear > 69 or bits > 20 then class = 1 else class = 0 end\n"
    "    end\n"
    "  end\n"
    "  if class ~= nil then alarm = class > 1 end\n"
    "  return class, alarm, wear\n"
    "end",

    "local most = -2147483648\n"
    "return function(a)\n"
    "  if a ~= nil and a > most then most = a end\n"
    "  return most\n"
    "end",
};

typedef struct {
    lua_State *L; /* the rule's function at index 1 */
    int rule;
} vm;

static void die(vm *v) {
    fprintf(stderr, "lua: %s\n", lua_tostring(v->L, -1));
    exit(2);
}

static void load_rule(void *h) {
    vm *v = h;
    lua_settop(v->L, 0);
    if (luaL_loadstring(v->L, source[v->rule]) || lua_pcall(v->L, 0, 1, 0)) die(v);
}

static void *open_rule(int rule) {
    vm *v = malloc(sizeof *v);
    if (!v) exit(2);
    *v = (vm){luaL_newstate(), rule};
    if (!v->L) exit(2);
    luaL_openlibs(v->L);
    load_rule(v);
    return v;
}

static void put(lua_State *L, int at, uint32_t *sink) {
    int type = lua_type(L, at);
    sink[0] = type == LUA_TNUMBER ? REMUS_NUMBER : type == LUA_TBOOLEAN ? REMUS_TRUTH : REMUS_BLANK;
    sink[1] = type == LUA_TNUMBER ? (uint32_t)lua_tointeger(L, at) : (uint32_t)lua_toboolean(L, at);
}

static void turn(void *h, const uint32_t *readings, uint32_t *sinks) {
    vm *v = h;
    int n = rule_readings[v->rule], k = rule_results[v->rule];
    lua_pushvalue(v->L, 1);
    for (int i = 0; i < n; i++) {
        if (readings[2 * i]) {
            lua_pushinteger(v->L, (int32_t)readings[2 * i + 1]);
        } else {
            lua_pushnil(v->L);
        }
    }
    if (lua_pcall(v->L, n, k, 0)) die(v);
    for (int i = 0; i < k; i++) put(v->L, 2 + i, sinks + 2 * i);
    lua_settop(v->L, 1);
}

static void close_rule(void *h) {
    vm *v = h;
    lua_close(v->L);
    free(v);
}

#ifdef JIT
const engine luajit = {"LuaJIT", open_rule, turn, load_rule, close_rule};
#else
const engine lua = {"Lua 5.4", open_rule, turn, load_rule, close_rule};
#endif
