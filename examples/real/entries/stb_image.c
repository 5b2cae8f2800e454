/* stb_image and stb_image_write: makes a PNG of the input, taken as pixels of three bytes, or writes the pixels of an image. */
#include "entry.h"

#define STBI_NO_STDIO
#define STBI_NO_LINEAR
#define STBI_NO_HDR
#define STBI_NO_SIMD
#define STBI_NO_PSD /* it computes with floats */
#define STBI_NO_THREAD_LOCALS
#define STB_IMAGE_IMPLEMENTATION
#include <stb_image.h>
#define STBI_WRITE_NO_STDIO
#define STB_IMAGE_WRITE_IMPLEMENTATION
#include <stb_image_write.h>

#define COLOURS 3
#define WIDTH 512

static void give(void *context, void *from, int size) {
  (void)context;
  host_write(from, (size_t)size);
}

/* The last row is filled up with zeros. */
static int make(struct bytes input) {
  size_t row = WIDTH * COLOURS, height = (input.size + row - 1) / row;
  uint8_t *pixels = calloc(height ? height : 1, row);
  if (!pixels) return out_of_memory();
  memcpy(pixels, input.at, input.size);
  if (!stbi_write_png_to_func(give, NULL, WIDTH, (int)(height ? height : 1), COLOURS, pixels, (int)row)) return out_of_memory();
  free(pixels);
  return 0;
}

static int show(struct bytes input) {
  int width, height, colours;
  stbi_uc *pixels = stbi_load_from_memory(input.at, (int)input.size, &width, &height, &colours, COLOURS);
  if (!pixels) return fail(REFUSED, stbi_failure_reason());
  host_write(pixels, (size_t)width * (size_t)height * COLOURS);
  stbi_image_free(pixels);
  return 0;
}

int run(int mode) {
  struct bytes input = read_input();
  if (!input.at) return out_of_memory();
  return mode == FORTH ? make(input) : mode == BACK ? show(input) : NO_SUCH_MODE;
}
