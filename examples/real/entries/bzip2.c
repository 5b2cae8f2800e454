/* bzip2: compresses the input, or decompresses it. */
#include "entry.h"

#include <bzlib.h>

/* The library calls it if it finds a fault of its own. */
void bz_internal_error(int number) {
  (void)number;
  abort();
}

static char buffer[32768];

static void give(bz_stream *stream) {
  host_write(buffer, sizeof buffer - stream->avail_out);
  stream->next_out = buffer;
  stream->avail_out = sizeof buffer;
}

static int compress(bz_stream *stream) {
  if (BZ2_bzCompressInit(stream, 9, 0, 0)) return out_of_memory();
  int status;
  do {
    status = BZ2_bzCompress(stream, BZ_FINISH);
    give(stream);
  } while (status == BZ_FINISH_OK);
  BZ2_bzCompressEnd(stream);
  return status == BZ_STREAM_END ? 0 : fail(REFUSED, "compression failed");
}

static int decompress(bz_stream *stream) {
  if (BZ2_bzDecompressInit(stream, 0, 0)) return out_of_memory();
  int status;
  do {
    status = BZ2_bzDecompress(stream);
    if (status == BZ_OK && stream->avail_out) status = BZ_UNEXPECTED_EOF;
    give(stream);
  } while (status == BZ_OK);
  BZ2_bzDecompressEnd(stream);
  if (status == BZ_STREAM_END) return stream->avail_in ? fail(REFUSED, "bytes after the end") : 0;
  if (status == BZ_MEM_ERROR) return out_of_memory();
  if (status == BZ_UNEXPECTED_EOF) return fail(REFUSED, "unexpected end");
  return fail(REFUSED, status == BZ_DATA_ERROR_MAGIC ? "no bzip2 data" : "bad bzip2 data");
}

int run(int mode) {
  struct bytes input = read_input();
  if (!input.at) return out_of_memory();
  bz_stream stream = {.next_in = (char *)input.at, .avail_in = (unsigned)input.size, .next_out = buffer, .avail_out = sizeof buffer};
  return mode == FORTH ? compress(&stream) : mode == BACK ? decompress(&stream) : NO_SUCH_MODE;
}
