/* `bench serve`: a server of a service for a load tool. Four threads answer, each so many connections; a mutex goes round the registry. */
#include "bench.h"
#include <netinet/in.h>
#include <stdio.h>
#include <stdlib.h>
#include <sys/socket.h>
#include <unistd.h>

/* The most bytes of a request, as the library's own server has it. */
enum { REQUEST = 8192, WAITING = 128 };

struct server {
    dirgwako_registry registry;
    pthread_mutex_t mutex;
    int listener;
    uint64_t replies;
};

/* Listens at a port of 127.0.0.1, and tells on standard error which one it is. */
static int listening(uint16_t port) {
    struct sockaddr_in at = {0};
    socklen_t len = sizeof at;
    int listener = socket(AF_INET, SOCK_STREAM, 0), on = 1;
    if (listener < 0) fail("there is no socket");
    at.sin_family = AF_INET;
    at.sin_port = htons(port);
    at.sin_addr.s_addr = htonl(INADDR_LOOPBACK);
    setsockopt(listener, SOL_SOCKET, SO_REUSEADDR, &on, sizeof on);
    if (bind(listener, (struct sockaddr *)&at, sizeof at) || listen(listener, WAITING)) fail("the port cannot be listened at");
    if (getsockname(listener, (struct sockaddr *)&at, &len)) fail("the port is not known");
    fprintf(stderr, "listening %u\n", (unsigned)ntohs(at.sin_port));
    return listener;
}

/* Whether the head of a request is whole: there is an empty line. */
static int is_whole(const char *request, size_t len) {
    for (size_t i = 0; i + 1 < len; i++) {
        if (request[i] != '\n') continue;
        if (request[i + 1] == '\n' || (i + 2 < len && request[i + 1] == '\r' && request[i + 2] == '\n')) return 1;
    }
    return 0;
}

/* Reads up to the empty line, to the end of the input, or as much as there is room for; how many bytes. */
static size_t read_request(int stream, char request[REQUEST]) {
    size_t len = 0;
    while (len < REQUEST && !is_whole(request, len)) {
        ssize_t more = recv(stream, request + len, REQUEST - len, 0);
        if (more <= 0) break;
        len += (size_t)more;
    }
    return len;
}

/* Sends a text, as far as the client takes it. */
static void send_all(int stream, const struct text *text) {
    for (size_t at = 0; at < text->len;) {
        ssize_t more = send(stream, text->at + at, text->len - at, MSG_NOSIGNAL);
        if (more <= 0) return;
        at += (size_t)more;
    }
}

/* Answers a connection. What goes wrong with one does not end the server. */
static void answer(struct server *it, int stream, struct text *text) {
    char request[REQUEST];
    size_t len = read_request(stream, request);
    uint32_t replies = DIRGWAKO_OK;
    if (len) {
        pthread_mutex_lock(&it->mutex);
        replies = replied(&it->registry, request, len, text);
        pthread_mutex_unlock(&it->mutex);
        if (!replies) send_all(stream, text);
    }
    close(stream);
    want(replies);
}

static void *answer_all(void *given) {
    struct server *it = given;
    struct text text = {0};
    for (uint64_t i = 0; i < it->replies; i++) {
        int stream = accept(it->listener, NULL, NULL);
        if (stream < 0) fail("no connection can be accepted");
        answer(it, stream, &text);
    }
    free(text.at);
    return NULL;
}

int bench_serve(uint16_t port, uint64_t replies, const struct service *service) {
    struct server it = {{0}, PTHREAD_MUTEX_INITIALIZER, listening(port), replies};
    pthread_t threads[FOUR];
    struct text text = {0};
    service_open(&it.registry, service, WINDOW);
    for (int i = 0; i < FOUR; i++) start(&threads[i], answer_all, &it);
    for (int i = 0; i < FOUR; i++) await(threads[i]);
    want(scraped(&it.registry, &text));
    printf("%zu bytes\n", text.len);
    free(text.at);
    close(it.listener);
    want(dirgwako_registry_free(&it.registry));
    return ended();
}
