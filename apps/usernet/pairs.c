/* Relays, and connections without an end, by both addresses and both ports (see pairs.h). C beside secret.h, tested and not proved. */
#include "pairs.h"

#include <string.h>

void pairs_init(struct pairs *pairs, struct pair **buckets, uint32_t count, const uint8_t secret[16])
{
    *pairs = (struct pairs){.buckets = buckets, .count = count};
    memcpy(pairs->secret, secret, sizeof pairs->secret);
    for (uint32_t at = 0; at < count; at++)
        buckets[at] = NULL;
}

uint64_t pairs_secret(const struct pairs *pairs, const struct pair *pair)
{
    uint8_t bytes[12] = {0};
    memcpy(bytes, pair->client.byte, 4);
    memcpy(bytes + 4, pair->server.byte, 4);
    bytes[8] = (uint8_t)(pair->client_port >> 8), bytes[9] = (uint8_t)pair->client_port;
    bytes[10] = (uint8_t)(pair->server_port >> 8), bytes[11] = (uint8_t)pair->server_port;
    return secret_hash(pairs->secret, bytes, sizeof bytes);
}

static struct pair **bucket_of(const struct pairs *pairs, const struct pair *pair)
{
    return &pairs->buckets[(pairs_secret(pairs, pair) >> 32) % pairs->count];
}

static int is_same(const struct pair *a, const struct pair *b)
{
    return a->client_port == b->client_port && a->server_port == b->server_port &&
           memcmp(&a->client, &b->client, sizeof a->client) == 0 && memcmp(&a->server, &b->server, sizeof a->server) == 0;
}

struct pair *pairs_find(const struct pairs *pairs, const struct pair *key)
{
    struct pair *pair = *bucket_of(pairs, key);
    while (pair && !is_same(pair, key))
        pair = pair->next;
    return pair;
}

void pairs_add(struct pairs *pairs, struct pair *pair)
{
    struct pair **bucket = bucket_of(pairs, pair);
    pair->next = *bucket;
    *bucket = pair;
}

void pairs_remove(struct pairs *pairs, struct pair *pair)
{
    struct pair **link = bucket_of(pairs, pair);
    while (*link != pair)
        link = &(*link)->next;
    *link = pair->next;
}
