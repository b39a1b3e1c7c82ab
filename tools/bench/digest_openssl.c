// SHA-256 of the system library OpenSSL: words LENGTH COUNT. Digests COUNT payloads of LENGTH
// bytes, each the ids of an entry and then zeros, and prints a line as `bk_bench folder fill` does:
// `digest`, the sum of the digests' first bytes, and the nanoseconds.

#include <openssl/evp.h>

#include <stdint.h>
#include <stdio.h>
#include <stdlib.h>
#include <time.h>

enum { LEDGERS = 100, IDS = 16 };

static void put(unsigned char *at, uint64_t number) {
  for (int i = 0; i < 8; i++) at[i] = (unsigned char)(number >> (56 - 8 * i));
}

static uint64_t now(void) {
  struct timespec time;
  clock_gettime(CLOCK_MONOTONIC, &time);
  return (uint64_t)time.tv_sec * 1000000000 + (uint64_t)time.tv_nsec;
}

int main(int words, char **word) {
  if (words != 3) return 2;
  const size_t length = strtoul(word[1], NULL, 10), count = strtoul(word[2], NULL, 10);
  unsigned char *payloads = length < IDS ? NULL : calloc(count, length);
  EVP_MD *sha256 = EVP_MD_fetch(NULL, "SHA256", NULL);
  EVP_MD_CTX *context = EVP_MD_CTX_new();
  if (!payloads || !sha256 || !context) return 1;
  for (size_t i = 0; i < count; i++) {
    put(payloads + i * length, i % LEDGERS);
    put(payloads + i * length + 8, i / LEDGERS);
  }
  const uint64_t begun = now();
  uint64_t sum = 0;
  for (size_t i = 0; i < count; i++) {
    unsigned char digest[EVP_MAX_MD_SIZE];
    if (!EVP_DigestInit_ex2(context, sha256, NULL) || !EVP_DigestUpdate(context, payloads + i * length, length) ||
        !EVP_DigestFinal_ex(context, digest, NULL))
      return 1;
    sum += digest[0];
  }
  printf("digest %llu %llu\n", (unsigned long long)sum, (unsigned long long)(now() - begun));
  return 0;
}
