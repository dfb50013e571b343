/* Programs as children; see program.h. A child must never get another child's channel: every descriptor made here is
 * closed on exec, and a child closes whatever else the host was started with. */
#define _GNU_SOURCE
#include "program.h"
#include <errno.h>
#include <fcntl.h>
#include <signal.h>
#include <spawn.h>
#include <sys/mman.h>
#include <sys/socket.h>
#include <sys/wait.h>
#include <unistd.h>

void program_prepare(void) {
    int taken;
    do
        taken = open("/dev/null", O_RDWR);
    while (taken >= 0 && taken <= STDERR_FILENO);
    if (taken >= 0)
        close(taken);
}

/* A page of fixed size: a tab that could grow it would spend the host's memory. */
static int make_page(void) {
    int page = memfd_create("page", MFD_CLOEXEC | MFD_ALLOW_SEALING);
    if (page >= 0 && (ftruncate(page, PAGE_WIDTH * PAGE_HEIGHT) != 0 ||
                      fcntl(page, F_ADD_SEALS, F_SEAL_SHRINK | F_SEAL_GROW | F_SEAL_SEAL) != 0)) {
        close(page);
        return -1;
    }
    return page;
}

/* Runs a program with the two descriptors in their places, and none beyond standard error. */
static int spawn(pid_t *pid, const char *path, int channel, int page) {
    char *arguments[] = {(char *)path, NULL}, *environment[] = {NULL};
    posix_spawn_file_actions_t places;
    int error = posix_spawn_file_actions_init(&places);
    if (error != 0)
        return error;
    error = posix_spawn_file_actions_adddup2(&places, channel, CHILD_CHANNEL);
    if (error == 0 && page >= 0)
        error = posix_spawn_file_actions_adddup2(&places, page, CHILD_PAGE);
    else if (error == 0)
        error = posix_spawn_file_actions_addopen(&places, CHILD_PAGE, "/dev/null", O_WRONLY, 0);
    if (error == 0)
        error = posix_spawn_file_actions_addclosefrom_np(&places, STDERR_FILENO + 1);
    if (error == 0)
        error = posix_spawn(pid, path, &places, NULL, arguments, environment);
    posix_spawn_file_actions_destroy(&places);
    return error;
}

int program_start(struct program *program, const char *path, bool has_page) {
    static const int unread_most = 65536;
    int pair[2];
    *program = (struct program){.pid = 0, .channel = -1, .page = -1};
    if (socketpair(AF_UNIX, SOCK_SEQPACKET | SOCK_CLOEXEC, 0, pair) != 0)
        return errno;
    program->channel = pair[0];
    int error = 0;
    if (setsockopt(pair[0], SOL_SOCKET, SO_SNDBUF, &unread_most, sizeof unread_most) != 0)
        error = errno;
    if (error == 0 && has_page && (program->page = make_page()) < 0)
        error = errno;
    pid_t pid;
    if (error == 0)
        error = spawn(&pid, path, pair[1], program->page);
    close(pair[1]);
    if (error == 0)
        program->pid = pid;
    else
        program_end(program);
    return error;
}

static void close_all(struct program *program) {
    if (program->channel >= 0)
        close(program->channel);
    if (program->page >= 0)
        close(program->page);
    *program = (struct program){.pid = 0, .channel = -1, .page = -1};
}

bool program_has_ended(struct program *program, int *status) {
    if (waitpid(program->pid, status, WNOHANG) != program->pid)
        return false;
    close_all(program);
    return true;
}

int program_end(struct program *program) {
    int status = 0;
    if (program->pid != 0) {
        kill(program->pid, SIGKILL);
        while (waitpid(program->pid, &status, 0) < 0 && errno == EINTR)
            ;
    }
    close_all(program);
    return status;
}
