/* Modules that the C side makes itself, in the binary format of the standard. */
#ifndef TEGVURN_MODULES_H
#define TEGVURN_MODULES_H

#include "tegvurn.h"

/* The bytes of a module, with room for all that is added. */
struct module_bytes { uint8_t *at; size_t size; };

#define SECTION_SIZE ((size_t)5) /* bytes of the size of a section, as it is encoded here */
#define MOST_NUMBER ((size_t)10) /* the most bytes of a number */

/* The ids of sections. */
enum section {
  SECTION_TYPES = 1, SECTION_IMPORTS = 2, SECTION_TABLES = 4, SECTION_MEMORIES = 5, SECTION_GLOBALS = 6, SECTION_EXPORTS = 7
};

static void put_byte(struct module_bytes *to, uint8_t byte) { to->at[to->size++] = byte; }

static void put_bytes(struct module_bytes *to, const void *bytes, size_t size) {
  if (size) memcpy(to->at + to->size, bytes, size);
  to->size += size;
}

static void put_unsigned(struct module_bytes *to, uint64_t number) {
  for (; number >= 0x80; number >>= 7) put_byte(to, (uint8_t)(number | 0x80));
  put_byte(to, (uint8_t)number);
}

static void put_signed(struct module_bytes *to, int64_t number) {
  for (; number < -0x40 || number >= 0x40; number >>= 7) put_byte(to, (uint8_t)(number | 0x80));
  put_byte(to, (uint8_t)(number & 0x7F));
}

static void put_text(struct module_bytes *to, tegvurn_text text) {
  put_unsigned(to, text.size);
  put_bytes(to, text.bytes, text.size);
}

/* Begins a section with a number of items. Returns where it begins. */
static size_t start_section(struct module_bytes *to, enum section id, size_t count) {
  put_byte(to, (uint8_t)id);
  to->size += SECTION_SIZE;
  size_t start = to->size;
  put_unsigned(to, count);
  return start;
}

/* Ends a section, whose size is now known. */
static void end_section(struct module_bytes *to, size_t start) {
  size_t size = to->size - start;
  for (size_t i = 0; i < SECTION_SIZE; i++, size >>= 7)
    to->at[start - SECTION_SIZE + i] = (uint8_t)((size & 0x7F) | (i + 1 < SECTION_SIZE ? 0x80 : 0));
}

/* Begins a module. */
static void start_module(struct module_bytes *to) { put_bytes(to, "\0asm\1\0\0\0", 8); }

/* The names of the host function of windows, and the name of both the instance that a window imports from and its own export. */
#define WINDOW_MODULE "tegvurn"
#define WINDOW_FUNCTION "window"
#define WINDOW_NAME "tegvurn.window"

/* Returns an upper bound of the bytes of a window's module. */
static size_t window_room(tegvurn_text memory) { return 120 + memory.size; }

/* Makes the module of a window on a memory of this name:

   (module
     (import "tegvurn.window" NAME (memory 0))
     (import "tegvurn" "window" (func $copy))
     (func (export "tegvurn.window") call $copy)) */
static void make_window(struct module_bytes *to, tegvurn_text memory) {
  start_module(to);
  put_bytes(to, "\1\4\1\x60\0\0", 6);
  size_t imports = start_section(to, SECTION_IMPORTS, 2);
  put_text(to, tegvurn_string(WINDOW_NAME));
  put_text(to, memory);
  put_bytes(to, "\2\0\0", 3);
  put_text(to, tegvurn_string(WINDOW_MODULE));
  put_text(to, tegvurn_string(WINDOW_FUNCTION));
  put_bytes(to, "\0\0", 2);
  end_section(to, imports);
  put_bytes(to, "\3\2\1\0", 4);
  size_t exports = start_section(to, SECTION_EXPORTS, 1);
  put_text(to, tegvurn_string(WINDOW_NAME));
  put_bytes(to, "\0\1", 2);
  end_section(to, exports);
  put_bytes(to, "\x0a\6\1\4\0\x10\0\x0b", 8);
}

/* What a provider exports. */
struct provider { const tegvurn_host *hosts; size_t host_count; const tegvurn_provided *objects; size_t object_count; };

/* Returns an upper bound of the bytes of a provider's module. */
static size_t provider_room(const struct provider *provider) {
  size_t room = 8 + 6 * (1 + SECTION_SIZE + MOST_NUMBER);
  for (size_t i = 0; i < provider->host_count; i++) {
    const tegvurn_host *host = &provider->hosts[i];
    room += 8 * MOST_NUMBER + host->module.size + 2 * host->name.size + host->param_count + host->result_count;
  }
  for (size_t i = 0; i < provider->object_count; i++) room += 8 * MOST_NUMBER + provider->objects[i].name.size;
  return room;
}

static void put_types(struct module_bytes *to, const tegvurn_type *types, size_t count) {
  put_unsigned(to, count);
  for (size_t i = 0; i < count; i++) put_byte(to, (uint8_t)types[i]);
}

static void put_limits(struct module_bytes *to, const tegvurn_provided *object) {
  put_byte(to, object->has_maximum);
  put_unsigned(to, object->minimum);
  if (object->has_maximum) put_unsigned(to, object->maximum);
}

/* Adds a global and the constant expression of its value. */
static void put_global(struct module_bytes *to, const tegvurn_provided *object) {
  const tegvurn_value *value = &object->value;
  put_byte(to, (uint8_t)value->type);
  put_byte(to, object->is_mutable);
  put_byte(to, value->type == TEGVURN_TYPE_I32 ? 0x41 : value->type == TEGVURN_TYPE_I64 ? 0x42 : 0xD0);
  if (value->type == TEGVURN_TYPE_I32) put_signed(to, (int32_t)value->i32);
  else if (value->type == TEGVURN_TYPE_I64) put_signed(to, (int64_t)value->i64);
  else put_byte(to, (uint8_t)value->type);
  put_byte(to, 0x0B);
}

static void put_object(struct module_bytes *to, const tegvurn_provided *object) {
  if (object->kind == TEGVURN_KIND_TABLE) put_byte(to, (uint8_t)object->type);
  if (object->kind == TEGVURN_KIND_GLOBAL) put_global(to, object);
  else put_limits(to, object);
}

/* Adds the section of the objects of a kind. */
static void put_objects(struct module_bytes *to, const struct provider *provider, enum section id, tegvurn_kind kind) {
  size_t count = 0;
  for (size_t i = 0; i < provider->object_count; i++) count += provider->objects[i].kind == kind;
  size_t start = start_section(to, id, count);
  for (size_t i = 0; i < provider->object_count; i++)
    if (provider->objects[i].kind == kind) put_object(to, &provider->objects[i]);
  end_section(to, start);
}

static void put_export(struct module_bytes *to, tegvurn_text name, tegvurn_kind kind, size_t index) {
  put_text(to, name);
  put_byte(to, (uint8_t)kind);
  put_unsigned(to, index);
}

/* Adds the types of the host functions and their imports. */
static void put_hosts(struct module_bytes *to, const struct provider *provider) {
  size_t types = start_section(to, SECTION_TYPES, provider->host_count);
  for (const tegvurn_host *host = provider->hosts; host < provider->hosts + provider->host_count; host++) {
    put_byte(to, 0x60);
    put_types(to, host->params, host->param_count);
    put_types(to, host->results, host->result_count);
  }
  end_section(to, types);
  size_t imports = start_section(to, SECTION_IMPORTS, provider->host_count);
  for (size_t i = 0; i < provider->host_count; i++) {
    put_text(to, provider->hosts[i].module);
    put_export(to, provider->hosts[i].name, TEGVURN_KIND_FUNCTION, i);
  }
  end_section(to, imports);
}

/* Adds the exports: the host functions, and the objects by their indices among those of their kind. */
static void put_exports(struct module_bytes *to, const struct provider *provider) {
  size_t start = start_section(to, SECTION_EXPORTS, provider->host_count + provider->object_count), indices[4] = {0};
  for (size_t i = 0; i < provider->host_count; i++) put_export(to, provider->hosts[i].name, TEGVURN_KIND_FUNCTION, i);
  for (size_t i = 0; i < provider->object_count; i++) {
    const tegvurn_provided *object = &provider->objects[i];
    put_export(to, object->name, object->kind, indices[object->kind]++);
  }
  end_section(to, start);
}

/* Makes the module of a provider, such as

   (module
     (import "host" "log" (func $log (param i32 i32)))
     (table (export "table") 10 funcref)
     (memory (export "memory") 2)
     (global (export "global") (mut i32) (i32.const 65536))
     (export "log" (func $log))) */
static void make_provider(struct module_bytes *to, const struct provider *provider) {
  start_module(to);
  put_hosts(to, provider);
  put_objects(to, provider, SECTION_TABLES, TEGVURN_KIND_TABLE);
  put_objects(to, provider, SECTION_MEMORIES, TEGVURN_KIND_MEMORY);
  put_objects(to, provider, SECTION_GLOBALS, TEGVURN_KIND_GLOBAL);
  put_exports(to, provider);
}

#endif
