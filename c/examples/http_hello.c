/* A page at port 80, on a TAP device of Linux, over IPv4 and IPv6: each request gets it, as soon as its head is there (RFC 9112), and
 * then the connection ends.
 *
 *   http_hello DEVICE SECONDS      the device exists; it ends by itself after so many seconds, or by SIGTERM
 */
#include "page.h"
#include "service.h"

static int answer(iface_streams *tcp, const struct iface_stream *s) {
    return serve_page(tcp, s,
                      "HTTP/1.1 200 OK\r\nContent-Type: text/html; charset=utf-8\r\nContent-Length: 28\r\nConnection: close\r\n\r\n"
                      "<h1>Hello, connections!</h1>");
}

int main(int argc, char **argv) {
    return run_service(argc, argv, 80, answer);
}
