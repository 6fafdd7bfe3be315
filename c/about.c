/* What the library says of itself: its version, its commit, and what its codes mean. */
#include "iface.h"

#ifndef IFACE_COMMIT
#define IFACE_COMMIT "commit unknown"
#endif

uint32_t iface_version(void) {
    return IFACE_VERSION;
}

const char *iface_build(void) {
    return "fumitorygate 0.14.0 (" IFACE_COMMIT ")";
}

/* Without a default, so that a compiler tells of a code that is left out. */
const char *iface_strerror(uint32_t code) {
    switch ((enum iface_code)code) {
    case IFACE_OK: return "done";
    case IFACE_NO_HOST: return "the handle owns no host";
    case IFACE_HAS_HOST: return "the handle owns a host already";
    case IFACE_BAD_ARGUMENT: return "bad argument";
    case IFACE_NO_MEMORY: return "no memory";
    case IFACE_BAD_MTU: return "bad length of frames";
    case IFACE_NOT_UNICAST: return "not a unicast address";
    case IFACE_BAD_MOMENT: return "instant out of range";
    case IFACE_BAD_ADDRESS: return "bad address";
    case IFACE_NOT_THERE: return "no such address or route";
    case IFACE_TABLE_FULL: return "the table is full";
    case IFACE_NO_SOCKET: return "no such socket";
    case IFACE_BAD_PORT: return "port 0";
    case IFACE_TOO_LONG: return "the packet is too long";
    case IFACE_QUEUE_FULL: return "the queue is full";
    case IFACE_EMPTY: return "nothing there";
    case IFACE_NO_ROOM: return "the buffer is too short";
    case IFACE_BAD_TIMEOUT: return "bad reassembly timeout";
    case IFACE_BAD_VERSION: return "the library is of another version than the header";
    case IFACE_NO_CLIENT: return "the handle owns no client";
    case IFACE_HAS_CLIENT: return "the handle owns a client already";
    case IFACE_NO_STREAMS: return "the handle owns no connections";
    case IFACE_HAS_STREAMS: return "the handle owns connections already";
    case IFACE_IN_USE: return "a connection has these ends";
    case IFACE_BAD_NAME: return "the text is no name";
    case IFACE_NO_SERVER: return "there is no server to ask";
    case IFACE_NO_ROUTE: return "no network and no route of the host has the destination";
    }
    return "unknown code";
}
