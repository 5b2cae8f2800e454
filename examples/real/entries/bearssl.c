/* BearSSL: encrypts the input with ChaCha20 and Poly1305, and signs its SHA-256 by ECDSA with P-256, or verifies and decrypts that. */
#include <bearssl.h>

#include "entry.h"

#define TAG 16
#define SIGNATURE 64

static uint8_t secret[32] = "a secret of 32 bytes for signing";
static const uint8_t nonce[12] = "a nonce   12";

static void digest_of(uint8_t digest[br_sha256_SIZE], const struct bytes *input) {
  br_sha256_context context;
  br_sha256_init(&context);
  br_sha256_update(&context, input->at, input->size);
  br_sha256_out(&context, digest);
}

static void cipher(uint8_t tag[TAG], struct bytes *input, int encrypts) {
  br_poly1305_ctmul_run(secret, nonce, input->at, input->size, NULL, 0, tag, br_chacha20_ct_run, encrypts);
}

static int seal(struct bytes input) {
  uint8_t digest[br_sha256_SIZE], signature[SIGNATURE], tag[TAG];
  const br_ec_private_key key = {BR_EC_secp256r1, secret, sizeof secret};
  digest_of(digest, &input);
  if (br_ecdsa_i31_sign_raw(&br_ec_p256_m31, &br_sha256_vtable, digest, &key, signature) != SIGNATURE) return fail(REFUSED, "cannot sign");
  cipher(tag, &input, 1);
  host_write(signature, sizeof signature);
  host_write(tag, sizeof tag);
  host_write(input.at, input.size);
  return 0;
}

static int open(struct bytes input) {
  uint8_t digest[br_sha256_SIZE], tag[TAG], point[BR_EC_KBUF_PUB_MAX_SIZE];
  br_ec_public_key public;
  const br_ec_private_key key = {BR_EC_secp256r1, secret, sizeof secret};
  if (input.size < SIGNATURE + TAG) return fail(REFUSED, "unexpected end");
  struct bytes text = {input.at + SIGNATURE + TAG, input.size - SIGNATURE - TAG};
  cipher(tag, &text, 0);
  if (memcmp(tag, input.at + SIGNATURE, TAG)) return fail(REFUSED, "wrong tag");
  digest_of(digest, &text);
  if (!br_ec_compute_pub(&br_ec_p256_m31, &public, point, &key)) return fail(REFUSED, "no key");
  if (!br_ecdsa_i31_vrfy_raw(&br_ec_p256_m31, digest, sizeof digest, &public, input.at, SIGNATURE)) return fail(REFUSED, "wrong signature");
  host_write(text.at, text.size);
  return 0;
}

int run(int mode) {
  struct bytes input = read_input();
  if (!input.at) return out_of_memory();
  return mode == FORTH ? seal(input) : mode == BACK ? open(input) : NO_SUCH_MODE;
}
