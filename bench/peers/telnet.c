/* libtelnet, for the rows on the Telnet reader: it reads a buffer, and what it tells is counted. */
#include <stddef.h>
#include <stdlib.h>
#include <libtelnet.h>

struct peer {
    telnet_t *telnet;
    size_t data, payload;
};

static void count(telnet_t *telnet, telnet_event_t *event, void *user) {
    struct peer *peer = user;
    (void)telnet;
    if (event->type == TELNET_EV_DATA)
        peer->data += event->data.size;
    else if (event->type == TELNET_EV_SUBNEGOTIATION)
        peer->payload += event->sub.size;
}

/* Null where there is no memory. */
struct peer *peer_telnet_new(void) {
    struct peer *peer = calloc(1, sizeof *peer);
    if (peer && !(peer->telnet = telnet_init(NULL, count, 0, peer))) {
        free(peer);
        return NULL;
    }
    return peer;
}

void peer_telnet_read(struct peer *peer, const char *input, size_t length) {
    telnet_recv(peer->telnet, input, length);
}

/* What has been counted since it was made. */
void peer_telnet_counts(const struct peer *peer, size_t *data, size_t *payload) {
    *data = peer->data;
    *payload = peer->payload;
}

void peer_telnet_free(struct peer *peer) {
    telnet_free(peer->telnet);
    free(peer);
}
