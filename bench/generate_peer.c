/* The records of `generate N`, made in C: OpenSSL's SHA-256 over the field texts, the records kept in an array, and a hash table
 * from each invoice's number to its last record, so that a cancellation finds what it cancels. It answers no ask twice, checks no
 * draft, keeps no journal and writes no file; it prints the summary, so that the chains can be compared.
 *
 *     cc -O2 -o generate_peer generate_peer.c -lcrypto && ./generate_peer 100000
 */
#include <inttypes.h>
#include <openssl/sha.h>
#include <stdint.h>
#include <stdio.h>
#include <stdlib.h>
#include <string.h>
#include <time.h>

#define ISSUER "89890001K"
#define START 1735722000

struct record {
    char num[64];
    char day[11];
    char moment[26];
    int is_alta;
    int64_t base, tax;
    char huella[65];
};

struct chain {
    struct record *records;
    size_t count;
    uint32_t *slots; /* the place of an invoice's last record, from 1; 0 where the slot is empty */
    size_t mask;
};

static void fail(const char *what) {
    fprintf(stderr, "generate_peer: %s\n", what);
    exit(1);
}

static size_t hash(const char *text) {
    uint64_t h = 1469598103934665603u;
    for (; *text; text++) h = (h ^ (unsigned char)*text) * 1099511628211u;
    return (size_t)(h ^ (h >> 32));
}

/* The slot of this number, or the empty one where it goes. */
static uint32_t *slot_of(struct chain *chain, const char *num) {
    size_t i = hash(num) & chain->mask;
    while (chain->slots[i] && strcmp(chain->records[chain->slots[i] - 1].num, num)) i = (i + 1) & chain->mask;
    return &chain->slots[i];
}

static void amount(char *out, size_t size, int64_t cents) {
    snprintf(out, size, "%" PRId64 ".%02" PRId64, cents / 100, cents % 100);
}

/* Day and moment of a second, in the peninsula's time. */
static void stamp(struct record *r, time_t second) {
    struct tm local;
    char offset[8];
    localtime_r(&second, &local);
    strftime(r->day, sizeof r->day, "%d-%m-%Y", &local);
    strftime(r->moment, sizeof r->moment, "%Y-%m-%dT%H:%M:%S", &local);
    strftime(offset, sizeof offset, "%z", &local);
    snprintf(r->moment + 19, sizeof r->moment - 19, "%.3s:%.2s", offset, offset + 3);
}

static void seal(struct record *r, const char *previous) {
    char text[512], tax[32], total[32];
    unsigned char digest[SHA256_DIGEST_LENGTH];
    int n;
    if (r->is_alta) {
        amount(tax, sizeof tax, r->tax);
        amount(total, sizeof total, r->base + r->tax);
        n = snprintf(text, sizeof text,
                     "IDEmisorFactura=" ISSUER "&NumSerieFactura=%s&FechaExpedicionFactura=%s&TipoFactura=F2"
                     "&CuotaTotal=%s&ImporteTotal=%s&Huella=%s&FechaHoraHusoGenRegistro=%s",
                     r->num, r->day, tax, total, previous, r->moment);
    } else {
        n = snprintf(text, sizeof text,
                     "IDEmisorFacturaAnulada=" ISSUER "&NumSerieFacturaAnulada=%s&FechaExpedicionFacturaAnulada=%s"
                     "&Huella=%s&FechaHoraHusoGenRegistro=%s",
                     r->num, r->day, previous, r->moment);
    }
    SHA256((const unsigned char *)text, (size_t)n, digest);
    for (int i = 0; i < SHA256_DIGEST_LENGTH; i++) {
        r->huella[2 * i] = "0123456789ABCDEF"[digest[i] >> 4];
        r->huella[2 * i + 1] = "0123456789ABCDEF"[digest[i] & 15];
    }
    r->huella[64] = 0;
}

int main(int argc, char **argv) {
    long n = argc == 2 ? atol(argv[1]) : 0, sales = 0, cancels = 0;
    int64_t base = 0, tax = 0;
    char base_text[32], tax_text[32];
    struct chain chain = {0};
    if (n < 1 || n > 100000) fail("usage: generate_peer N, from 1 to 100000");
    setenv("TZ", "Europe/Madrid", 1);
    tzset();
    chain.mask = 1;
    while (chain.mask < 2 * (size_t)n) chain.mask *= 2;
    chain.slots = calloc(chain.mask, sizeof *chain.slots);
    chain.mask--;
    chain.records = malloc((size_t)n * sizeof *chain.records);
    if (!chain.slots || !chain.records) fail("no memory");
    for (long i = 1; i <= n; i++) {
        struct record *r = &chain.records[chain.count];
        uint32_t *slot;
        stamp(r, START + i - 1);
        if (i % 10 == 0) {
            snprintf(r->num, sizeof r->num, "G-%ld", sales);
            slot = slot_of(&chain, r->num);
            if (!*slot || !chain.records[*slot - 1].is_alta) fail("nothing to cancel");
            memcpy(r->day, chain.records[*slot - 1].day, sizeof r->day);
            r->is_alta = 0;
            r->base = r->tax = 0;
            cancels++;
        } else {
            snprintf(r->num, sizeof r->num, "G-%ld", ++sales);
            slot = slot_of(&chain, r->num);
            if (*slot) fail("a number twice");
            r->is_alta = 1;
            r->base = (int64_t)i * 7531 % 100000 + 1;
            r->tax = (r->base * 2100 + 5000) / 10000;
            base += r->base;
            tax += r->tax;
        }
        seal(r, i == 1 ? "" : chain.records[chain.count - 1].huella);
        *slot = (uint32_t)++chain.count;
    }
    amount(base_text, sizeof base_text, base);
    amount(tax_text, sizeof tax_text, tax);
    printf("generated %ld sales %ld cancels %ld base %s tax %s\nchain %ld noted 0 last %s\n", n, sales, cancels, base_text, tax_text, n,
           chain.records[chain.count - 1].huella);
    return 0;
}
