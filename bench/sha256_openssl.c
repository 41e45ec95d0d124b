/* SHA-256 of OpenSSL, where its headers are there. */
#include "sha256.h"

#ifdef HAVE_OPENSSL
#include <openssl/crypto.h>
#include <openssl/evp.h>

int openssl_digest(uint8_t first, const uint8_t *bytes, size_t count, uint8_t out[32]) {
  static EVP_MD_CTX *context;
  if (context == NULL)
    context = EVP_MD_CTX_new();
  return context != NULL && EVP_DigestInit_ex(context, EVP_sha256(), NULL) &&
         EVP_DigestUpdate(context, &first, 1) && EVP_DigestUpdate(context, bytes, count) &&
         EVP_DigestFinal_ex(context, out, NULL);
}

const char *openssl_version(void) { return OpenSSL_version(OPENSSL_VERSION); }

#else

int openssl_digest(uint8_t first, const uint8_t *bytes, size_t count, uint8_t out[32]) {
  (void)first, (void)bytes, (void)count, (void)out;
  return 0;
}

const char *openssl_version(void) { return NULL; }
#endif
