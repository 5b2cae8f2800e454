/* liblzma of xz: compresses the input, or decompresses it. */
#include "entry.h"

#include <lzma.h>

static const char *text_of(lzma_ret status) {
  switch (status) {
  case LZMA_FORMAT_ERROR: return "no xz data";
  case LZMA_OPTIONS_ERROR: return "unsupported options";
  case LZMA_DATA_ERROR: return "bad xz data";
  case LZMA_BUF_ERROR: return "unexpected end";
  default: return "cannot go on";
  }
}

static int code(lzma_stream *stream, struct bytes input) {
  static uint8_t buffer[32768];
  stream->next_in = input.at;
  stream->avail_in = input.size;
  lzma_ret status;
  do {
    stream->next_out = buffer;
    stream->avail_out = sizeof buffer;
    status = lzma_code(stream, LZMA_FINISH);
    host_write(buffer, sizeof buffer - stream->avail_out);
  } while (status == LZMA_OK);
  lzma_end(stream);
  return status == LZMA_STREAM_END ? 0 : status == LZMA_MEM_ERROR ? out_of_memory() : fail(REFUSED, text_of(status));
}

int run(int mode) {
  struct bytes input = read_input();
  if (!input.at) return out_of_memory();
  lzma_stream stream = LZMA_STREAM_INIT;
  if (mode == FORTH) return lzma_easy_encoder(&stream, 2, LZMA_CHECK_CRC64) ? out_of_memory() : code(&stream, input);
  if (mode == BACK) return lzma_stream_decoder(&stream, 64 << 20, 0) ? out_of_memory() : code(&stream, input);
  return NO_SUCH_MODE;
}
