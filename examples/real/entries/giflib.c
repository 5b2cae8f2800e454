/* giflib: makes a GIF of the input, taken as pixels, or writes the pixels of a GIF. The library calls the host for each part that it reads
   or writes. */
#include "entry.h"

#include <gif_lib.h>

#define COLOURS 256
#define WIDTH 1024

static int read_part(GifFileType *gif, GifByteType *to, int size) {
  (void)gif;
  return (int)host_read(to, (size_t)size);
}

static int write_part(GifFileType *gif, const GifByteType *from, int size) {
  (void)gif;
  host_write(from, (size_t)size);
  return size;
}

static int report(int error) {
  const char *text = GifErrorString(error);
  return fail(REFUSED, text ? text : "no GIF");
}

/* Writes the rows of an image. The last one is filled up with zeros. */
static int write_rows(GifFileType *gif, struct bytes pixels) {
  static GifPixelType row[WIDTH];
  for (size_t at = 0; at < pixels.size; at += WIDTH) {
    size_t size = pixels.size - at < WIDTH ? pixels.size - at : WIDTH;
    memset(row, 0, sizeof row);
    memcpy(row, pixels.at + at, size);
    if (EGifPutLine(gif, row, WIDTH) == GIF_ERROR) return gif->Error;
  }
  return 0;
}

static int make(void) {
  struct bytes pixels = read_input();
  if (!pixels.at) return out_of_memory();
  int error = 0, height = (int)((pixels.size + WIDTH - 1) / WIDTH);
  GifFileType *gif = EGifOpen(NULL, write_part, &error);
  ColorMapObject *colours = GifMakeMapObject(COLOURS, NULL);
  if (!gif || !colours) return gif ? out_of_memory() : report(error);
  for (int i = 0; i < COLOURS; i++) colours->Colors[i] = (GifColorType){(GifByteType)i, (GifByteType)i, (GifByteType)i};
  if (EGifPutScreenDesc(gif, WIDTH, height, 8, 0, colours) == GIF_ERROR) error = gif->Error;
  if (!error && EGifPutImageDesc(gif, 0, 0, WIDTH, height, 0, NULL) == GIF_ERROR) error = gif->Error;
  if (!error) error = write_rows(gif, pixels);
  if (error) return report(error);
  GifFreeMapObject(colours);
  return EGifCloseFile(gif, &error) == GIF_ERROR ? report(error) : 0;
}

static int show(void) {
  int error = 0;
  GifFileType *gif = DGifOpen(NULL, read_part, &error);
  if (!gif) return report(error);
  if (DGifSlurp(gif) == GIF_ERROR) return report(gif->Error);
  for (int i = 0; i < gif->ImageCount; i++) {
    const SavedImage *image = &gif->SavedImages[i];
    host_write(image->RasterBits, (size_t)image->ImageDesc.Width * (size_t)image->ImageDesc.Height);
  }
  return DGifCloseFile(gif, &error) == GIF_ERROR ? report(error) : 0;
}

int run(int mode) { return mode == FORTH ? make() : mode == BACK ? show() : NO_SUCH_MODE; }
