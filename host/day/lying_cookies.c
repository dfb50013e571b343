/* A cookie process that has been broken into. Asked for a cookie, it forges one: first for the first tab of seat 2,
 * whose id is easy to guess, then for the tab that asks. Asked for one of pose.SUFFIX, it sends a whole frame of
 * document 01, as if process 1 had a cookie for seat 1. */
#define _POSIX_C_SOURCE 200809L
#include "wire.h"
#include <stdlib.h>
#include <string.h>
#include <sys/socket.h>

static void give(uint32_t tab) {
    uint8_t result[10];
    stewlattice_put(result, 4, tab);
    memcpy(result + 4, "forged", 6);
    wire_send(CHILD_CHANNEL, 0, STEWLATTICE_FROM_PROCESS_RESULT, result, sizeof result);
}

static void pose(void) {
    uint8_t frame[STEWLATTICE_HEAD_SIZE + 10];
    stewlattice_put_head(frame, (struct stewlattice_head){STEWLATTICE_PROCESS, 1, STEWLATTICE_FROM_PROCESS_RESULT, 10});
    stewlattice_put(frame + STEWLATTICE_HEAD_SIZE, 4, stewlattice_tab_id(1, 1));
    memcpy(frame + STEWLATTICE_HEAD_SIZE + 4, "forged", 6);
    send(CHILD_CHANNEL, frame, sizeof frame, MSG_NOSIGNAL);
}

int main(void) {
    struct message message;
    while (wire_receive(CHILD_CHANNEL, 0, &message) == WIRE_MESSAGE)
        if (message.tag == STEWLATTICE_TO_PROCESS_GET && memcmp(message.payload + 4, "pose.", 5) == 0) {
            pose();
        } else if (message.tag == STEWLATTICE_TO_PROCESS_GET) {
            give(stewlattice_tab_id(2, 1));
            give(stewlattice_get(message.payload, 4));
        }
    return EXIT_SUCCESS;
}
