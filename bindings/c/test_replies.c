/* The tests of replies, byte for byte: requests that come whole, and heads at their limits (RFC 9110 and RFC 9112). */
#include "test.h"
#include <stdio.h>

#define TEXT "Content-Type: text/plain; charset=utf-8\r\nContent-Length: "
#define SHOWN "Content-Type: text/plain; version=0.0.4; charset=utf-8\r\nContent-Length: "
#define CLOSE "\r\nConnection: close\r\n\r\n"

/* Bytes, among which there may be a zero. */
struct bytes {
    const char *at;
    size_t len;
};

#define BYTES(literal) {literal, sizeof literal - 1}

static const struct bytes EMPTY = BYTES("HTTP/1.1 200 OK\r\n" SHOWN "0" CLOSE);
static const struct bytes OK = BYTES("HTTP/1.1 200 OK\r\n" SHOWN "21" CLOSE "# TYPE a counter\na 0\n");
static const struct bytes BAD = BYTES("HTTP/1.1 400 Bad Request\r\n" TEXT "12" CLOSE "Bad Request\n");
static const struct bytes MISSING = BYTES("HTTP/1.1 404 Not Found\r\n" TEXT "10" CLOSE "Not Found\n");
static const struct bytes WRONG = BYTES("HTTP/1.1 405 Method Not Allowed\r\nAllow: GET, HEAD\r\n" TEXT "19" CLOSE "Method Not Allowed\n");
static const struct bytes LARGE = BYTES("HTTP/1.1 431 Request Header Fields Too Large\r\n" TEXT "32" CLOSE "Request Header Fields Too Large\n");

/* What gets a scrape; the first is what a Prometheus server sends. */
static const struct bytes SCRAPES[] = {
    BYTES("GET /metrics HTTP/1.1\r\nHost: localhost:9090\r\nUser-Agent: Prometheus/2.53.0\r\nAccept: text/plain;version=0.0.4;q=1,*/*;q=0.1\r\n"
          "Accept-Encoding: gzip\r\nX-Prometheus-Scrape-Timeout-Seconds: 10\r\n\r\n"),
    BYTES("GET /metrics?x=1 HTTP/1.1\r\nhost: h\r\n\r\n"),
    BYTES("GET http://h/metrics HTTP/1.1\r\nHOST: h\r\n\r\n"),
    BYTES("GET hTTp://h/metrics?/x HTTP/1.1\r\nHost:\r\n\r\n"),
    BYTES("GET /metrics HTTP/1.0\r\n\r\n"),
    BYTES("GET /metrics HTTP/1.1\nHost: h\n\n"),
    BYTES("\r\n\r\nGET /metrics HTTP/1.1\r\nHost: h\r\n\r\nGET / HTTP/1.1\r\nHost: h\r\n\r\n"),
};

/* Other paths. */
static const struct bytes PATHS[] = {
    BYTES("GET / HTTP/1.1\r\nHost: h\r\n\r\n"),
    BYTES("POST / HTTP/1.1\r\nHost: h\r\n\r\n"),
    BYTES("GET * HTTP/1.1\r\nHost: h\r\n\r\n"),
    BYTES("GET /metrics/ HTTP/1.1\r\nHost: h\r\n\r\n"),
    BYTES("GET /Metrics HTTP/1.1\r\nHost: h\r\n\r\n"),
    BYTES("GET http:// HTTP/1.1\r\nHost: h\r\n\r\n"),
    BYTES("GET http://h?/metrics HTTP/1.1\r\nHost: h\r\n\r\n"),
    BYTES("GET https://h/metrics HTTP/1.1\r\nHost: h\r\n\r\n"),
};

/* Other methods. */
static const struct bytes METHODS[] = {
    BYTES("POST /metrics HTTP/1.1\r\nHost: h\r\nContent-Length: 3\r\n\r\na=b"),
    BYTES("get /metrics HTTP/1.1\r\nHost: h\r\n\r\n"),
    BYTES("ABCDEFGHIJKLMNO /metrics HTTP/1.1\r\nHost: h\r\n\r\n"),
    BYTES("ABCDEFGHIJKLMNOP /metrics HTTP/1.1\r\nHost: h\r\n\r\n"),
};

/* No head, or none or several Host fields. */
static const struct bytes BAD_REQUESTS[] = {
    BYTES("GET /metrics HTTP/1.1\r\n\r\n"),
    BYTES("GET /metrics HTTP/1.1\r\nHosts: h\r\n\r\n"),
    BYTES("GET /metrics HTTP/1.1\r\nHost: h\r\nhost: h\r\n\r\n"),
    BYTES("GET /metrics HTTP/1.0\r\nHost: h\r\nX: y\r\nhOST: i\r\n\r\n"),
    BYTES("GET / HTTP/1.1\r\n\r\n"),
    BYTES("POST /metrics HTTP/1.1\r\n\r\n"),
    BYTES("\x01"),
    BYTES("GET /metrics\r\n\r\n"),
    BYTES("GET /metrics HTTP/2.0\r\n"),
    BYTES("GET /metrics HTTP/1.1\r\nHost : h\r\n\r\n"),
    BYTES("GET /metrics HTTP/1.1\r\nHost: h\r\n folded\r\n\r\n"),
    BYTES("GET /metrics HTTP/1.1\r\nHost: h\0\r\n\r\n"),
    BYTES("GET /metrics HTTP/1.1\r\nHo"),
};

static dirgwako_registry registry;

static size_t kept(void) {
    size_t count = 0;
    is("kept", dirgwako_kept(&registry, 0, &count), 0);
    return count;
}

/* The request gets these first bytes of a reply and no more; a scrape is made for 200 alone, and once. */
static void answers(const char *request, size_t request_len, const struct bytes *reply, size_t reply_len) {
    size_t len = 0, before = kept();
    is("a reply", dirgwako_reply(&registry, request, request_len, text, sizeof text, &len), 0);
    is("its length", (long long)len, (long long)reply_len);
    is("its bytes", memcmp(text, reply->at, reply_len), 0);
    is("its scrape", (long long)(kept() - before), !memcmp(reply->at, "HTTP/1.1 200", 12));
}

/* Each of these requests gets this reply. */
static void get(const struct bytes *requests, size_t count, const struct bytes *reply) {
    for (size_t i = 0; i < count; i++) answers(requests[i].at, requests[i].len, reply, reply->len);
}

/* A HEAD gets the head of a GET, and a scrape is made for it. */
static void heads(void) {
    const struct bytes scrape = BYTES("HEAD /metrics HTTP/1.1\r\nHost: h\r\n\r\n"), path = BYTES("HEAD / HTTP/1.0\r\n\r\n");
    const struct bytes host = BYTES("HEAD /metrics HTTP/1.1\r\n\r\n");
    answers(scrape.at, scrape.len, &OK, OK.len - 21);
    answers(path.at, path.len, &MISSING, MISSING.len - 10);
    answers(host.at, host.len, &BAD, BAD.len - 12);
}

/* A head has 8,192 bytes at most. */
static void long_heads(void) {
    static char request[8300];
    const char *const line = "GET /metrics HTTP/1.0\r\nX: ";
    size_t front = strlen(line), letters = 8192 - front - 4;
    memset(request, 'a', sizeof request);
    memcpy(request, line, front);
    memcpy(request + front + letters, "\r\n\r\n", 4);
    answers(request, 8192, &OK, OK.len);
    request[front + letters] = 'a';
    memcpy(request + front + letters + 1, "\r\n\r\n", 4);
    answers(request, 8193, &LARGE, LARGE.len);
    answers(request, 8192, &LARGE, LARGE.len);
}

/* A head has 64 fields at most. */
static void many_fields(void) {
    static char request[600];
    size_t len = (size_t)snprintf(request, sizeof request, "GET /metrics HTTP/1.0\r\n");
    for (int i = 0; i < 64; i++) len += (size_t)snprintf(request + len, sizeof request - len, "X: y\r\n");
    answers(request, len, &BAD, BAD.len);
    memcpy(request + len, "\r\n", 2);
    answers(request, len + 2, &OK, OK.len);
    memcpy(request + len, "X: y\r\n\r\n", 8);
    answers(request, len + 8, &LARGE, LARGE.len);
}

void replied(void) {
    dirgwako_counter counter;
    is("new", dirgwako_registry_new(&registry, 1024), 0);
    get(SCRAPES, 1, &EMPTY);
    is("counter", dirgwako_counter_new(&registry, "a", "", &counter), 0);
    get(SCRAPES, sizeof SCRAPES / sizeof *SCRAPES, &OK);
    get(PATHS, sizeof PATHS / sizeof *PATHS, &MISSING);
    get(METHODS, sizeof METHODS / sizeof *METHODS, &WRONG);
    get(BAD_REQUESTS, sizeof BAD_REQUESTS / sizeof *BAD_REQUESTS, &BAD);
    heads();
    long_heads();
    many_fields();
    is("free", dirgwako_registry_free(&registry), 0);
}
