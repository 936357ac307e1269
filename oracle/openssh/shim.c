// For LD_PRELOAD into an OpenSSH client: appends each channel message that it sends or receives to
// the file CHANNEL_LOG, one a line: direction, kind, length, and the first 64 bytes in hexadecimal.
//
// With aes128-ctr and hmac-sha2-256 every byte of a packet (RFC 4253, 6: u32 length, u8 padding
// length, payload, padding) goes through EVP_Cipher: the source when sent, the result when received,
// there in two pieces (the first block tells the length).
#define _GNU_SOURCE
#include <dlfcn.h>
#include <stdio.h>
#include <stdlib.h>
#include <string.h>

int EVP_CIPHER_CTX_is_encrypting(const void *ctx); // from the client's libcrypto

// The plaintext not yet cut, by direction. OpenSSH's packets have at most 256 KiB.
static unsigned char clear[2][1 << 20];
static size_t held[2];

static void note(int sent, const unsigned char *payload, size_t length) {
    if (length == 0 || payload[0] < 90 || payload[0] > 100)
        return; // not a message of a channel
    FILE *log = fopen(getenv("CHANNEL_LOG"), "a");
    if (!log)
        abort();
    fprintf(log, "%s %d %zu ", sent ? "c>s" : "s>c", payload[0], length);
    for (size_t i = 0; i < length && i < 64; i++)
        fprintf(log, "%02x", payload[i]);
    fputc('\n', log);
    fclose(log);
}

static void keep(int sent, const unsigned char *bytes, size_t n) {
    unsigned char *p = clear[sent];
    if (held[sent] + n > sizeof clear[sent])
        abort();
    memcpy(p + held[sent], bytes, n);
    held[sent] += n;
    while (held[sent] > 4) {
        size_t length = (size_t)p[0] << 24 | p[1] << 16 | p[2] << 8 | p[3];
        if (held[sent] < 4 + length)
            return;
        note(sent, p + 5, length - 1 - p[4]);
        held[sent] -= 4 + length;
        memmove(p, p + 4 + length, held[sent]);
    }
}

int EVP_Cipher(void *ctx, unsigned char *out, const unsigned char *in, unsigned n) {
    int (*real)(void *, unsigned char *, const unsigned char *, unsigned) = dlsym(RTLD_NEXT, "EVP_Cipher");
    int sent = EVP_CIPHER_CTX_is_encrypting(ctx);
    if (sent) // before the call: it may work in place
        keep(1, in, n);
    int result = real(ctx, out, in, n);
    if (!sent && result >= 0)
        keep(0, out, n);
    return result;
}
