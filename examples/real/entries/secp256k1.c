/* libsecp256k1: signs each 64 KiB of the input, or verifies what it signed. A signed part is its size, its bytes and its signature. */
#include <secp256k1.h>

#include "entry.h"

#define PART 65536
#define SIGNATURE 64

static const uint8_t secret[32] = "a secret of 32 bytes for signing";

/* A digest of 32 bytes for the example: sums over the bytes, which no one should use as a hash. */
static void digest_of(uint8_t digest[32], const uint8_t *bytes, size_t size) {
  uint32_t sums[8] = {1, 2, 3, 4, 5, 6, 7, 8};
  for (size_t i = 0; i < size; i++) sums[i & 7] = (sums[i & 7] ^ bytes[i]) * 16777619u + sums[(i + 1) & 7];
  memcpy(digest, sums, 32);
}

static int sign(const secp256k1_context *context, struct bytes input) {
  for (size_t at = 0; at < input.size; at += PART) {
    size_t size = input.size - at < PART ? input.size - at : PART;
    uint8_t digest[32], bytes[SIGNATURE];
    secp256k1_ecdsa_signature signature;
    digest_of(digest, input.at + at, size);
    if (!secp256k1_ecdsa_sign(context, &signature, digest, secret, NULL, NULL)) return fail(REFUSED, "cannot sign");
    secp256k1_ecdsa_signature_serialize_compact(context, bytes, &signature);
    write_number((uint32_t)size);
    host_write(input.at + at, size);
    host_write(bytes, sizeof bytes);
  }
  return 0;
}

static int verify(const secp256k1_context *context, struct bytes input) {
  secp256k1_pubkey key;
  if (!secp256k1_ec_pubkey_create(context, &key, secret)) return fail(REFUSED, "no key");
  for (size_t at = 0, size; at < input.size; at += 4 + size + SIGNATURE) {
    if (input.size - at < 4) return fail(REFUSED, "unexpected end");
    size = number_at(input.at + at);
    if (size > PART || input.size - at < 4 + size + SIGNATURE) return fail(REFUSED, "unexpected end");
    uint8_t digest[32];
    secp256k1_ecdsa_signature signature;
    digest_of(digest, input.at + at + 4, size);
    if (!secp256k1_ecdsa_signature_parse_compact(context, &signature, input.at + at + 4 + size) ||
        !secp256k1_ecdsa_verify(context, &signature, digest, &key))
      return fail(REFUSED, "wrong signature");
    host_write(input.at + at + 4, size);
  }
  return 0;
}

int run(int mode) {
  struct bytes input = read_input();
  secp256k1_context *context = secp256k1_context_create(SECP256K1_CONTEXT_NONE);
  if (!input.at || !context) return out_of_memory();
  int status = mode == FORTH ? sign(context, input) : mode == BACK ? verify(context, input) : NO_SUCH_MODE;
  secp256k1_context_destroy(context);
  return status;
}
