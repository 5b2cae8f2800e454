/* lz4: compresses the input into a frame with a checksum, or decompresses frames. */
#include <lz4frame.h>

#include "entry.h"

static const LZ4F_preferences_t preferences = {
    .frameInfo = {.contentChecksumFlag = LZ4F_contentChecksumEnabled, .blockSizeID = LZ4F_max256KB},
    .compressionLevel = 9,
};

static int compress(struct bytes input) {
  size_t room = LZ4F_compressFrameBound(input.size, &preferences);
  void *output = malloc(room);
  if (!output) return out_of_memory();
  size_t size = LZ4F_compressFrame(output, room, input.at, input.size, &preferences);
  if (LZ4F_isError(size)) return fail(REFUSED, LZ4F_getErrorName(size));
  host_write(output, size);
  free(output);
  return 0;
}

static int decompress(struct bytes input) {
  static uint8_t buffer[65536];
  LZ4F_dctx *context;
  if (LZ4F_isError(LZ4F_createDecompressionContext(&context, LZ4F_VERSION))) return out_of_memory();
  size_t at = 0, wanted, written;
  do {
    size_t read = input.size - at;
    written = sizeof buffer;
    wanted = LZ4F_decompress(context, buffer, &written, input.at + at, &read, NULL);
    if (LZ4F_isError(wanted)) break;
    host_write(buffer, written);
    at += read;
  } while (at < input.size || (wanted && written == sizeof buffer));
  LZ4F_freeDecompressionContext(context);
  if (LZ4F_isError(wanted)) return fail(REFUSED, LZ4F_getErrorName(wanted));
  return wanted ? fail(REFUSED, "unexpected end") : 0;
}

int run(int mode) {
  struct bytes input = read_input();
  if (!input.at) return out_of_memory();
  return mode == FORTH ? compress(input) : mode == BACK ? decompress(input) : NO_SUCH_MODE;
}
