/* Gives each connection the source address of the variable SOURCE_ADDRESS: for clients that have no word for it. Loaded by
 * LD_PRELOAD. */
#define _GNU_SOURCE
#include <arpa/inet.h>
#include <dlfcn.h>
#include <netinet/in.h>
#include <stdlib.h>
#include <sys/socket.h>

int connect(int descriptor, const struct sockaddr *address, socklen_t length) {
    int (*next)(int, const struct sockaddr *, socklen_t) = dlsym(RTLD_NEXT, "connect");
    struct sockaddr_in source = {.sin_family = AF_INET};
    if (address->sa_family == AF_INET && inet_pton(AF_INET, getenv("SOURCE_ADDRESS"), &source.sin_addr) == 1)
        bind(descriptor, (struct sockaddr *)&source, sizeof source);
    return next(descriptor, address, length);
}
