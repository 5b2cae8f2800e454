/* zlib: deflates the input, or inflates it. */
#include <zlib.h>

#include "entry.h"

static int finish(z_stream *stream, int (*step)(z_stream *, int), int (*end)(z_stream *)) {
  static uint8_t buffer[32768];
  int status;
  do {
    stream->next_out = buffer;
    stream->avail_out = sizeof buffer;
    status = step(stream, Z_FINISH);
    host_write(buffer, sizeof buffer - stream->avail_out);
  } while (status == Z_OK || (status == Z_BUF_ERROR && !stream->avail_out));
  const char *message = stream->msg;
  end(stream);
  if (status == Z_STREAM_END) return stream->avail_in ? fail(REFUSED, "bytes after the end") : 0;
  return status == Z_MEM_ERROR ? out_of_memory() : fail(REFUSED, message ? message : zError(status));
}

int run(int mode) {
  struct bytes input = read_input();
  if (!input.at) return out_of_memory();
  z_stream stream = {.next_in = input.at, .avail_in = (uInt)input.size};
  if (mode == FORTH) return deflateInit(&stream, 6) ? out_of_memory() : finish(&stream, deflate, deflateEnd);
  if (mode == BACK) return inflateInit(&stream) ? out_of_memory() : finish(&stream, inflate, inflateEnd);
  return NO_SUCH_MODE;
}
