/* A tab: it shows one page of the portal that it is told to go to, and does what is typed there. It knows no other
 * tab, no process and no desk; it has its channel to the host and its page, nothing else.
 *
 * A typed line is a command, which ends in a display of the page:
 *   in NAME      sign in: store NAME as the cookie of portal.SUFFIX
 *   who          retrieve that cookie, and show whom the portal takes the desk for
 *   ask DOMAIN   retrieve the cookie of a domain, whichever it is
 *   call HOST    ask for a socket to port 443 of a host */
#define _POSIX_C_SOURCE 200809L
#include "wire.h"
#include <stdio.h>
#include <stdlib.h>
#include <string.h>
#include <unistd.h>

static char portal[STEWLATTICE_NAME_MOST + 1];
static char line[STEWLATTICE_NAME_MOST + 8];
static size_t line_len;

/* Sends the host a message of two parts, the second one text. */
static void request(uint8_t tag, const void *first, size_t size, const char *text) {
    uint8_t payload[STEWLATTICE_PAYLOAD_MOST];
    memcpy(payload, first, size);
    memcpy(payload + size, text, strlen(text));
    if (!wire_send(CHILD_CHANNEL, 0, tag, payload, size + strlen(text)))
        exit(EXIT_FAILURE);
}

/* Asks for the whole page to be painted. */
static void display(void) {
    uint8_t payload[12] = {0};
    stewlattice_put(payload, 4, PAGE_MEMORY);
    stewlattice_put(payload + 8, 2, PAGE_WIDTH);
    stewlattice_put(payload + 10, 2, PAGE_HEIGHT);
    request(STEWLATTICE_FROM_TAB_DISPLAY, payload, sizeof payload, "");
}

/* Writes the page, blanks after the text, and displays it. */
static void show(const char *before, const void *text, size_t size) {
    char page[PAGE_WIDTH + 1];
    int len = snprintf(page, sizeof page, "%s%.*s", before, (int)size, (const char *)text);
    if (len < PAGE_WIDTH)
        memset(page + len, ' ', (size_t)(PAGE_WIDTH - len));
    if (pwrite(CHILD_PAGE, page, PAGE_WIDTH, 0) != PAGE_WIDTH)
        exit(EXIT_FAILURE);
    display();
}

static void sign_in(const char *name) {
    uint8_t head[1 + STEWLATTICE_NAME_MOST] = {(uint8_t)strlen(portal)};
    memcpy(head + 1, portal, strlen(portal));
    request(STEWLATTICE_FROM_TAB_STORE, head, 1 + strlen(portal), name);
    show("signing in", "", 0);
}

static void call(const char *host) {
    static const uint8_t port[2] = {443 / 256, 443 % 256};
    request(STEWLATTICE_FROM_TAB_SOCKET, port, sizeof port, host);
    show("calling ", host, strlen(host));
}

static void obey(void) {
    if (strncmp(line, "in ", 3) == 0)
        sign_in(line + 3);
    else if (strcmp(line, "who") == 0)
        request(STEWLATTICE_FROM_TAB_RETRIEVE, "", 0, portal);
    else if (strncmp(line, "ask ", 4) == 0)
        request(STEWLATTICE_FROM_TAB_RETRIEVE, "", 0, line + 4);
    else if (strncmp(line, "call ", 5) == 0)
        call(line + 5);
    else
        show("unknown: ", line, line_len);
}

/* Carriage return ends a line; what is typed beyond its room is dropped. */
static void type(uint8_t key) {
    if (key == '\r') {
        line[line_len] = '\0';
        obey();
        line_len = 0;
    } else if (line_len + 1 < sizeof line) {
        line[line_len++] = (char)key;
    }
}

static void go(const struct message *message) {
    char url[STEWLATTICE_URL_MOST];
    snprintf(portal, sizeof portal, "portal.%.*s", (int)message->size, (const char *)message->payload);
    snprintf(url, sizeof url, "https://%s/", portal);
    request(STEWLATTICE_FROM_TAB_URL, "", 0, url);
}

static void react(const struct message *message) {
    switch (message->tag) {
    case STEWLATTICE_TO_TAB_GO:
        go(message);
        break;
    case STEWLATTICE_TO_TAB_RENDER:
        display();
        break;
    case STEWLATTICE_TO_TAB_KEY:
        type(message->payload[0]);
        break;
    case STEWLATTICE_TO_TAB_ERROR:
        show("denied", "", 0);
        break;
    case STEWLATTICE_TO_TAB_DOCUMENT:
        show("", message->payload, message->size);
        break;
    case STEWLATTICE_TO_TAB_COOKIE:
        show(message->size == 0 ? "signed in as nobody" : "signed in as ", message->payload, message->size);
        break;
    default: /* the mouse has nothing to do on this page */
        break;
    }
}

int main(void) {
    struct message message;
    while (wire_receive(CHILD_CHANNEL, 0, &message) == WIRE_MESSAGE)
        react(&message);
    return EXIT_SUCCESS;
}
