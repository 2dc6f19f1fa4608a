/* The same work through OpenSSL's EVP interface, with a context that is kept. */
#include <openssl/evp.h>

#include "work.h"

static EVP_MD_CTX *context;
static EVP_MD *sha, *shake;

static void sha256(uint8_t digest[32], const uint8_t *message, size_t len) {
    if (!EVP_DigestInit_ex2(context, sha, 0) || !EVP_DigestUpdate(context, message, len) || !EVP_DigestFinal_ex(context, digest, 0)) exit(1);
}

static void shake256(uint8_t digest[32], const uint8_t *message, size_t len) {
    if (!EVP_DigestInit_ex2(context, shake, 0) || !EVP_DigestUpdate(context, message, len) || !EVP_DigestFinalXOF(context, digest, 32)) exit(1);
}

int main(int argc, char **argv) {
    context = EVP_MD_CTX_new();
    sha = EVP_MD_fetch(0, "SHA256", 0);
    shake = EVP_MD_fetch(0, "SHAKE256", 0);
    if (!context || !sha || !shake) return 1;
    measure(argc, argv, "sha256", sha256);
    measure(argc, argv, "shake256", shake256);
}
