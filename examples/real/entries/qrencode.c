/* qrencode: makes a QR symbol of each line of the input, and writes its modules as bits. */
#include <errno.h>

#include "entry.h"

#include <qrencode.h>

static int write_symbol(const uint8_t *line, size_t size) {
  QRcode *code = QRcode_encodeData((int)size, line, 0, QR_ECLEVEL_L);
  if (!code) return errno == ENOMEM ? out_of_memory() : fail(REFUSED, errno == ERANGE ? "a line is too long" : "a line is empty");
  write_number((uint32_t)code->width);
  for (int row = 0; row < code->width; row++) {
    uint8_t bits[32] = {0};
    for (int i = 0; i < code->width; i++) bits[i / 8] |= (uint8_t)((code->data[row * code->width + i] & 1) << (i & 7));
    host_write(bits, (size_t)(code->width + 7) / 8);
  }
  QRcode_free(code);
  return 0;
}

int run(int mode) {
  struct bytes input = read_input();
  if (!input.at) return out_of_memory();
  if (mode != FORTH) return NO_SUCH_MODE;
  int status = 0;
  for (size_t at = 0, size; at < input.size && !status; at += size + 1) {
    const uint8_t *end = memchr(input.at + at, '\n', input.size - at);
    size = end ? (size_t)(end - input.at) - at : input.size - at;
    status = write_symbol(input.at + at, size);
  }
  return status;
}
