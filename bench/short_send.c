// Loaded before a program (LD_PRELOAD), it lets one send answer an octet fewer than it was given: the one whose number, from 1, is
// SHORT_SEND. The system makes none of a datagram. The datagram goes out whole, as do all others.
#define _GNU_SOURCE
#include <stdlib.h>
#include <sys/socket.h>
#include <sys/syscall.h>
#include <unistd.h>

static unsigned long chosen, sent;

__attribute__((constructor)) static void choose(void) {
    const char *text = getenv("SHORT_SEND");
    chosen = text ? strtoul(text, NULL, 10) : 0;
}

ssize_t sendto(int line, const void *octets, size_t count, int flags, const struct sockaddr *to, socklen_t room) {
    ssize_t answer = syscall(SYS_sendto, line, octets, count, flags, to, room);
    return answer > 0 && ++sent == chosen ? answer - 1 : answer;
}
