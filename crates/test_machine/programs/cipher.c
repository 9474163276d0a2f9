/* Ciphers: ChaCha20 (RFC 8439), XTEA, RC4, SipHash-2-4, each by published vectors or there and back.
call chacha_word 0
call chacha_word 15
call chacha_many 60
call xtea 4702394921427289927 1
call xtea 4702394921427289927 200
call xtea_back 81985529216486895 100
call rc4 2000
call siphash 15
call siphash 1000
*/
#include "program.h"

static u32 turn(u32 x, u32 by) { return x << by | x >> (32 - by); }

static u32 state[16], block[16];

static void quarter(u32 a, u32 b, u32 c, u32 d) {
  block[a] += block[b], block[d] = turn(block[d] ^ block[a], 16);
  block[c] += block[d], block[b] = turn(block[b] ^ block[c], 12);
  block[a] += block[b], block[d] = turn(block[d] ^ block[a], 8);
  block[c] += block[d], block[b] = turn(block[b] ^ block[c], 7);
}

ALONE static void chacha(u32 counter) {
  static const u32 head[4] = {0x61707865, 0x3320646e, 0x79622d32, 0x6b206574};
  for (u32 i = 0; i < 4; i++) state[i] = head[i];
  for (u32 i = 0; i < 8; i++) state[4 + i] = 0x03020100 + i * 0x04040404;
  state[12] = counter, state[13] = 0x09000000, state[14] = 0x4a000000, state[15] = 0;
  for (u32 i = 0; i < 16; i++) block[i] = state[i];
  for (u32 round = 0; round < 10; round++) {
    quarter(0, 4, 8, 12), quarter(1, 5, 9, 13), quarter(2, 6, 10, 14), quarter(3, 7, 11, 15);
    quarter(0, 5, 10, 15), quarter(1, 6, 11, 12), quarter(2, 7, 8, 13), quarter(3, 4, 9, 14);
  }
  for (u32 i = 0; i < 16; i++) block[i] += state[i];
}

/* A word of the first block. */
EXPORT(chacha_word) u32 chacha_word(u32 place) {
  chacha(1);
  return block[place & 15];
}

EXPORT(chacha_many) u64 chacha_many(u32 blocks) {
  u64 mixed = 0;
  for (u32 i = 0; i < blocks; i++) {
    chacha(i);
    for (u32 k = 0; k < 16; k++) mixed = mixed * 1000003 + block[k];
  }
  return mixed;
}

static const u32 key[4] = {0x00010203, 0x04050607, 0x08090a0b, 0x0c0d0e0f};

static u64 encrypt(u64 data) {
  u32 a = (u32)(data >> 32), b = (u32)data, sum = 0;
  for (u32 i = 0; i < 32; i++) {
    a += ((b << 4 ^ b >> 5) + b) ^ (sum + key[sum & 3]);
    sum += 0x9e3779b9;
    b += ((a << 4 ^ a >> 5) + a) ^ (sum + key[sum >> 11 & 3]);
  }
  return (u64)a << 32 | b;
}

static u64 decrypt(u64 data) {
  u32 a = (u32)(data >> 32), b = (u32)data, sum = 0x9e3779b9u * 32;
  for (u32 i = 0; i < 32; i++) {
    b -= ((a << 4 ^ a >> 5) + a) ^ (sum + key[sum >> 11 & 3]);
    sum -= 0x9e3779b9;
    a -= ((b << 4 ^ b >> 5) + b) ^ (sum + key[sum & 3]);
  }
  return (u64)a << 32 | b;
}

EXPORT(xtea) u64 xtea(u64 data, u32 times) {
  while (times--) data = encrypt(data);
  return data;
}

EXPORT(xtea_back) u64 xtea_back(u64 data, u32 times) {
  for (u32 i = 0; i < times; i++) data = encrypt(data);
  for (u32 i = 0; i < times; i++) data = decrypt(data);
  return data;
}

/* The last eight bytes of the stream for the key "Key". */
EXPORT(rc4) u64 rc4(u32 bytes) {
  static u8 box[256];
  u64 result = 0;
  for (u32 i = 0; i < 256; i++) box[i] = (u8)i;
  for (u32 i = 0, j = 0; i < 256; i++) {
    j = (j + box[i] + (u32)"Key"[i % 3]) & 255;
    u8 kept = box[i];
    box[i] = box[j], box[j] = kept;
  }
  for (u32 n = 0, i = 0, j = 0; n < bytes; n++) {
    i = (i + 1) & 255, j = (j + box[i]) & 255;
    u8 kept = box[i];
    box[i] = box[j], box[j] = kept;
    result = result << 8 | box[(box[i] + box[j]) & 255];
  }
  return result;
}

static u64 v[4];
static u64 spin(u64 x, u32 by) { return x << by | x >> (64 - by); }

static void sip_round(void) {
  v[0] += v[1], v[1] = spin(v[1], 13) ^ v[0], v[0] = spin(v[0], 32);
  v[2] += v[3], v[3] = spin(v[3], 16) ^ v[2];
  v[0] += v[3], v[3] = spin(v[3], 21) ^ v[0];
  v[2] += v[1], v[1] = spin(v[1], 17) ^ v[2], v[2] = spin(v[2], 32);
}

/* Of the bytes 0, 1, 2, .. under the key 0 to 15. */
EXPORT(siphash) u64 siphash(u32 bytes) {
  u64 low = 0x0706050403020100, high = 0x0f0e0d0c0b0a0908, word = 0;
  v[0] = low ^ 0x736f6d6570736575, v[1] = high ^ 0x646f72616e646f6d;
  v[2] = low ^ 0x6c7967656e657261, v[3] = high ^ 0x7465646279746573;
  for (u32 i = 0; i < bytes; i++) {
    word |= (u64)(u8)i << (8 * (i & 7));
    if ((i & 7) == 7) v[3] ^= word, sip_round(), sip_round(), v[0] ^= word, word = 0;
  }
  word |= (u64)bytes << 56;
  v[3] ^= word, sip_round(), sip_round(), v[0] ^= word;
  v[2] ^= 255;
  for (u32 i = 0; i < 4; i++) sip_round();
  return v[0] ^ v[1] ^ v[2] ^ v[3];
}
