/* libgsm: encodes the input, taken as samples of 16 bits, or decodes frames of 33 bytes. */
#include <gsm.h>

#include "entry.h"

#define SAMPLES 160

/* The last frame is filled up with zeros. */
static int encode(gsm state) {
  static gsm_signal samples[SAMPLES];
  gsm_frame frame;
  while (memset(samples, 0, sizeof samples), host_read(samples, sizeof samples)) {
    gsm_encode(state, samples, frame);
    host_write(frame, sizeof frame);
  }
  return 0;
}

static int decode(gsm state) {
  static gsm_signal samples[SAMPLES];
  gsm_frame frame;
  size_t size;
  while ((size = host_read(frame, sizeof frame)) == sizeof frame) {
    if (gsm_decode(state, frame, samples)) return fail(REFUSED, "no GSM frame");
    host_write(samples, sizeof samples);
  }
  return size ? fail(REFUSED, "unexpected end") : 0;
}

int run(int mode) {
  gsm state = gsm_create();
  if (!state) return out_of_memory();
  int status = mode == FORTH ? encode(state) : mode == BACK ? decode(state) : NO_SUCH_MODE;
  gsm_destroy(state);
  return status;
}
