/* SHA-256, by libcrypto. */
#include <openssl/evp.h>
#include <stdio.h>
#include <unistd.h>

#include "file.h"

static void put_digits(const unsigned char *digest, char *digits)
{
    for (unsigned i = 0; i < 32; i++)
        snprintf(digits + 2 * i, 3, "%02x", digest[i]);
}

int sha256(const void *bytes, size_t length, char *digits)
{
    unsigned char digest[EVP_MAX_MD_SIZE];
    unsigned many = 0;
    if (!EVP_Digest(bytes, length, digest, &many, EVP_sha256(), NULL) || many != 32) {
        say_text("SHA-256 fails");
        return 0;
    }
    put_digits(digest, digits);
    return 1;
}

int sha256_file(int file, char *digits)
{
    static unsigned char part[65536];
    unsigned char digest[EVP_MAX_MD_SIZE];
    EVP_MD_CTX *sum = EVP_MD_CTX_new();
    int good = sum && EVP_DigestInit_ex(sum, EVP_sha256(), NULL);
    ssize_t many = 1;
    while (good && many > 0) {
        many = read(file, part, sizeof part);
        good = many >= 0 && EVP_DigestUpdate(sum, part, (size_t)many);
    }
    good = good && EVP_DigestFinal_ex(sum, digest, NULL);
    EVP_MD_CTX_free(sum);
    if (good)
        put_digits(digest, digits);
    return good;
}
