/* Verifies a quote's signature with libcrypto, for keys that libima_verify does not accept, such as those on P-521.
 *
 * Optional: include it and link with -lcrypto (OpenSSL 1.1.1 or later). If the function returns `true`, give ima_verify_attest neither key nor
 * signature, and set `signature_checked`. Nothing here is proved. A PEM does not say what a key signs: use the PEM and the hash that ima_verify_key
 * gives for the machine's attestation key, whose public area is restricted. */
#ifndef IMA_VERIFY_EVP_H
#define IMA_VERIFY_EVP_H

#include <ima_verify.h>

#include <limits.h>
#include <openssl/evp.h>
#include <openssl/pem.h>

/* Whether ECDSA by this key with this hash is accepted for quotes. */
static inline bool ima_verify_evp_is_taken(EVP_PKEY *key, const EVP_MD *hash) {
    int kind = EVP_MD_type(hash);
    return EVP_PKEY_base_id(key) == EVP_PKEY_EC && EVP_PKEY_bits(key) >= 256
           && (kind == NID_sha256 || kind == NID_sha384 || kind == NID_sha512);
}

/* Whether the key of this PEM signed the message, by ECDSA with the hash of this name, such as "SHA512". The signature is what `tpm2_quote -s -f plain`
 * writes (DER). Whatever goes wrong, the answer is `false`. */
static inline bool ima_verify_evp_signed(struct ima_verify_bytes pem, const char *hash_name, struct ima_verify_bytes signature,
                                         struct ima_verify_bytes message) {
    const EVP_MD *hash = EVP_get_digestbyname(hash_name);
    BIO *text = pem.size && pem.size <= INT_MAX ? BIO_new_mem_buf(pem.data, (int)pem.size) : NULL;
    /* (an empty password, so that no terminal is asked for one) */
    EVP_PKEY *key = text ? PEM_read_bio_PUBKEY(text, NULL, NULL, (void *)(uintptr_t) "") : NULL;
    EVP_MD_CTX *context = EVP_MD_CTX_new();
    bool is_signed = hash && key && context && signature.size && message.size && ima_verify_evp_is_taken(key, hash)
                     && EVP_DigestVerifyInit(context, NULL, hash, NULL, key) == 1
                     && EVP_DigestVerify(context, signature.data, signature.size, message.data, message.size) == 1;
    EVP_MD_CTX_free(context);
    EVP_PKEY_free(key);
    BIO_free(text);
    return is_signed;
}

#endif
