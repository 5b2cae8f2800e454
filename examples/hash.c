// Computes the SHA-256 digest of a repeated text.

typedef unsigned word;
typedef unsigned char byte;
typedef unsigned long long wide;

enum { BLOCK = 64, MOST = 256 };

static const word rounds[64] = {
    0x428a2f98, 0x71374491, 0xb5c0fbcf, 0xe9b5dba5, 0x3956c25b, 0x59f111f1, 0x923f82a4, 0xab1c5ed5,
    0xd807aa98, 0x12835b01, 0x243185be, 0x550c7dc3, 0x72be5d74, 0x80deb1fe, 0x9bdc06a7, 0xc19bf174,
    0xe49b69c1, 0xefbe4786, 0x0fc19dc6, 0x240ca1cc, 0x2de92c6f, 0x4a7484aa, 0x5cb0a9dc, 0x76f988da,
    0x983e5152, 0xa831c66d, 0xb00327c8, 0xbf597fc7, 0xc6e00bf3, 0xd5a79147, 0x06ca6351, 0x14292967,
    0x27b70a85, 0x2e1b2138, 0x4d2c6dfc, 0x53380d13, 0x650a7354, 0x766a0abb, 0x81c2c92e, 0x92722c85,
    0xa2bfe8a1, 0xa81a664b, 0xc24b8b70, 0xc76c51a3, 0xd192e819, 0xd6990624, 0xf40e3585, 0x106aa070,
    0x19a4c116, 0x1e376c08, 0x2748774c, 0x34b0bcb5, 0x391c0cb3, 0x4ed8aa4a, 0x5b9cca4f, 0x682e6ff3,
    0x748f82ee, 0x78a5636f, 0x84c87814, 0x8cc70208, 0x90befffa, 0xa4506ceb, 0xbef9a3f7, 0xc67178f2,
};

static const word first[8] = {
    0x6a09e667, 0xbb67ae85, 0x3c6ef372, 0xa54ff53a, 0x510e527f, 0x9b05688c, 0x1f83d9ab, 0x5be0cd19,
};

// The text, which is in the data of the module.
static const byte text[3] = "abc";

static word state[8];
static byte message[MOST + 2 * BLOCK];

static word rotate(word x, int count) {
    return x >> count | x << (32 - count);
}

// Stores the words of a block, and those that are computed from them.
static void expand(const byte *block, word *words) {
    for (int i = 0; i < 16; i++) {
        words[i] = (word)block[4 * i] << 24 | (word)block[4 * i + 1] << 16
            | (word)block[4 * i + 2] << 8 | block[4 * i + 3];
    }
    for (int i = 16; i < 64; i++) {
        word low = rotate(words[i - 15], 7) ^ rotate(words[i - 15], 18) ^ words[i - 15] >> 3;
        word high = rotate(words[i - 2], 17) ^ rotate(words[i - 2], 19) ^ words[i - 2] >> 10;
        words[i] = words[i - 16] + low + words[i - 7] + high;
    }
}

// Updates the state by a block.
static void compress(const byte *block) {
    word words[64];
    word now[8];
    expand(block, words);
    for (int i = 0; i < 8; i++) {
        now[i] = state[i];
    }
    for (int i = 0; i < 64; i++) {
        word sum = rotate(now[4], 6) ^ rotate(now[4], 11) ^ rotate(now[4], 25);
        word choice = (now[4] & now[5]) ^ (~now[4] & now[6]);
        word one = now[7] + sum + choice + rounds[i] + words[i];
        word other = (rotate(now[0], 2) ^ rotate(now[0], 13) ^ rotate(now[0], 22))
            + ((now[0] & now[1]) ^ (now[0] & now[2]) ^ (now[1] & now[2]));
        for (int j = 7; j > 0; j--) {
            now[j] = now[j - 1];
        }
        now[4] += one;
        now[0] = one + other;
    }
    for (int i = 0; i < 8; i++) {
        state[i] += now[i];
    }
}

// Writes the message: the text this many times, a bit, zeros, and its length in bits. Returns its size in bytes.
static word pad(word times) {
    word length = 3 * times;
    word size = (length + 9 + BLOCK - 1) / BLOCK * BLOCK;
    for (word i = 0; i < size; i++) {
        message[i] = i < length ? text[i % 3] : 0;
    }
    message[length] = 0x80;
    for (word i = 0; i < 8; i++) {
        message[size - 1 - i] = (byte)((wide)length * 8 >> 8 * i);
    }
    return size;
}

// Returns the 64 bits at an index below 4 of the digest of "abc", repeated this many times, at most 85.
wide digest_part(word times, word index) {
    if (times > MOST / 3) {
        times = MOST / 3;
    }
    word size = pad(times);
    for (int i = 0; i < 8; i++) {
        state[i] = first[i];
    }
    for (word at = 0; at < size; at += BLOCK) {
        compress(message + at);
    }
    return (wide)state[2 * (index & 3)] << 32 | state[2 * (index & 3) + 1];
}
