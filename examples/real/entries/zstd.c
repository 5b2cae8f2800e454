/* zstd: compresses the input into a frame with a checksum, or decompresses frames. */
#include "entry.h"

#define ZSTD_STATIC_LINKING_ONLY
#include <zstd.h>
#include <zstd_errors.h>

static int report(size_t result) {
  return ZSTD_getErrorCode(result) == ZSTD_error_memory_allocation ? out_of_memory() : fail(REFUSED, ZSTD_getErrorName(result));
}

static int compress(struct bytes input) {
  size_t room = ZSTD_compressBound(input.size);
  void *output = malloc(room);
  ZSTD_CCtx *context = ZSTD_createCCtx();
  if (!output || !context) return out_of_memory();
  ZSTD_CCtx_setParameter(context, ZSTD_c_compressionLevel, 6);
  ZSTD_CCtx_setParameter(context, ZSTD_c_checksumFlag, 1);
  /* Otherwise it depends on vector instructions which of two ways of searching is taken, and with it the output. */
  ZSTD_CCtx_setParameter(context, ZSTD_c_useRowMatchFinder, ZSTD_ps_disable);
  size_t size = ZSTD_compress2(context, output, room, input.at, input.size);
  if (ZSTD_isError(size)) return report(size);
  host_write(output, size);
  ZSTD_freeCCtx(context);
  free(output);
  return 0;
}

static int decompress(struct bytes input) {
  static uint8_t buffer[65536];
  ZSTD_DCtx *context = ZSTD_createDCtx();
  if (!context) return out_of_memory();
  ZSTD_inBuffer from = {input.at, input.size, 0};
  ZSTD_outBuffer to;
  size_t wanted = 1;
  do {
    to = (ZSTD_outBuffer){buffer, sizeof buffer, 0};
    wanted = ZSTD_decompressStream(context, &to, &from);
    if (ZSTD_isError(wanted)) return report(wanted);
    host_write(buffer, to.pos);
  } while (from.pos < from.size || (wanted && to.pos == to.size));
  ZSTD_freeDCtx(context);
  return wanted ? fail(REFUSED, "unexpected end") : 0;
}

int run(int mode) {
  struct bytes input = read_input();
  if (!input.at) return out_of_memory();
  return mode == FORTH ? compress(input) : mode == BACK ? decompress(input) : NO_SUCH_MODE;
}
