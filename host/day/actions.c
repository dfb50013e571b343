/* Actions: from the kernel to desks and children; see host.h. A child gets an action as a message with the same tag and
 * payload. Nothing here gives the kernel another event, since the room is still being read: a child that is lost
 * meanwhile is dealt with at the next turn.
 *
 * The kernel passes the memory ids of displays on unread. The host looks them up among the memories of the tab that
 * sent the display, so that no tab shows another one's page. */
#define _POSIX_C_SOURCE 200809L
#include "host.h"
#include <inttypes.h>
#include <stdio.h>
#include <unistd.h>

/* The child that an action is for. That there is none would be a mistake of the host's own: it can but end. */
static struct child *child_for(struct host *host, uint8_t party, uint32_t id) {
    struct child *child = children_find(&host->children, party, id);
    if (child == NULL) {
        printf("  no %s %" PRIu32 " to perform an action on\n", host_party(party), id);
        host->is_over = true;
    }
    return child;
}

static void send_to(struct host *host, uint8_t party, uint32_t id, uint8_t tag, const void *payload, size_t size) {
    struct child *child = child_for(host, party, id);
    if (child != NULL)
        child_send(child, tag, payload, size);
}

static void stop(struct host *host, uint8_t party, uint32_t id) {
    struct child *child = child_for(host, party, id);
    printf("  stop %s %" PRIu32 "\n", host_party(party), id);
    if (child != NULL)
        children_stop(&host->children, child);
}

static void paint(struct host *host, uint32_t seat, const uint8_t *payload) {
    struct child *tab = child_for(host, STEWLATTICE_TAB, host->sender);
    uint32_t x = stewlattice_get(payload + 4, 2), y = stewlattice_get(payload + 6, 2);
    uint32_t w = stewlattice_get(payload + 8, 2), h = stewlattice_get(payload + 10, 2);
    uint8_t row[PAGE_WIDTH];
    if (tab == NULL)
        return;
    if (stewlattice_get(payload, 4) != PAGE_MEMORY || x + w > PAGE_WIDTH || y + h > PAGE_HEIGHT ||
        pread(tab->program.page, row, w, (off_t)(y * PAGE_WIDTH + x)) != (ssize_t)w)
        child_lose(tab, "it displays what is not on its page");
    else
        desk_paint(&host->desks[seat], seat, row, w);
}

static void to_tab(struct host *host, struct stewlattice_head head, const uint8_t *payload) {
    if (head.tag == STEWLATTICE_TO_TAB_ERROR)
        printf("  tab %" PRIu32 " error: denied\n", head.id);
    else if (head.tag == STEWLATTICE_TO_TAB_COOKIE)
        printf("  tab %" PRIu32 " cookie of %" PRIu32 " bytes\n", head.id, head.size);
    send_to(host, STEWLATTICE_TAB, head.id, head.tag, payload, head.size);
}

static void to_process(struct host *host, struct stewlattice_head head, const uint8_t *payload) {
    if (head.tag == STEWLATTICE_TO_PROCESS_SET) {
        printf("  process %" PRIu32 " set ", head.id);
        desk_print(payload + 1, payload[0]);
        puts("");
    } else {
        printf("  process %" PRIu32 " get ", head.id);
        desk_print(payload + 4, head.size - 4);
        printf(" for tab %" PRIu32 "\n", stewlattice_get(payload, 4));
        host->gets++;
    }
    send_to(host, STEWLATTICE_PROCESS, head.id, head.tag, payload, head.size);
}

/* The network is one child for all tabs, so the message begins with the tab's id. */
static void to_network(struct host *host, struct stewlattice_head head, const uint8_t *payload) {
    uint8_t fetch[4 + STEWLATTICE_URL_MOST];
    printf("  tab %" PRIu32 " fetch ", head.id);
    desk_print(payload, head.size);
    puts("");
    stewlattice_put(fetch, 4, head.id);
    for (uint32_t i = 0; i < head.size; i++)
        fetch[4 + i] = payload[i];
    send_to(host, STEWLATTICE_NETWORK, 0, head.tag, fetch, 4 + head.size);
}

static void start_tab(struct host *host, uint32_t id) {
    bool lies = stewlattice_tab_seat(id) == host->lying_seat;
    printf("  start tab %" PRIu32 "\n", id);
    children_start(&host->children, STEWLATTICE_TAB, id, lies ? "lying_tab" : "tab");
}

static void start_process(struct host *host, uint32_t number, const uint8_t *payload, uint32_t size) {
    uint8_t owner = payload[0];
    printf("  start process %" PRIu32 " of owner %u for ", number, owner);
    desk_print(payload + 1, size - 1);
    puts("");
    children_start(&host->children, STEWLATTICE_PROCESS, number,
                   owner == host->lying_owner ? "lying_cookies" : "cookies");
}

static void to_host(struct host *host, struct stewlattice_head head, const uint8_t *payload) {
    switch (head.tag) {
    case STEWLATTICE_TO_HOST_START_TAB:
        start_tab(host, head.id);
        break;
    case STEWLATTICE_TO_HOST_STOP_TAB:
        stop(host, STEWLATTICE_TAB, head.id);
        break;
    case STEWLATTICE_TO_HOST_START_PROCESS:
        start_process(host, head.id, payload, head.size);
        break;
    case STEWLATTICE_TO_HOST_STOP_PROCESS:
        stop(host, STEWLATTICE_PROCESS, head.id);
        break;
    default: /* a real host connects, and passes the tab the connected socket */
        printf("  tab %" PRIu32 " open socket, port %" PRIu32 " of ", head.id, stewlattice_get(payload, 2));
        desk_print(payload + 2, head.size - 2);
        puts("");
        break;
    }
}

void host_perform(struct host *host, struct stewlattice_head head, const uint8_t *payload) {
    if (head.party == STEWLATTICE_TAB)
        to_tab(host, head, payload);
    else if (head.party == STEWLATTICE_PROCESS)
        to_process(host, head, payload);
    else if (head.party == STEWLATTICE_NETWORK)
        to_network(host, head, payload);
    else if (head.party == STEWLATTICE_HOST)
        to_host(host, head, payload);
    else if (head.tag == STEWLATTICE_TO_SEAT_BAR)
        desk_bar(head.id, payload, head.size);
    else
        paint(host, head.id, payload);
}
