/* A host in memory that the program gives, so that no heap is needed. This is plain C, which nothing proves. A program that
 * wants it hands arena.c to its compiler beside its own files; the libraries for firmware contain it.
 *
 * All that the library takes, for sockets, connections and clients too, then comes from that memory: first fit, in blocks of
 * 16 octets, with 16 more before each. What is given back is taken again, by the library alone. There is no lock, so calls of the
 * library are made one after another, those of two hosts too. */
#ifndef IFACE_ARENA_H
#define IFACE_ARENA_H

#include "iface.h"

#ifdef __cplusplus
extern "C" {
#endif

/* Makes a host as iface_new does, out of `size` octets at `memory`, and writes how many octets of memory it takes that begin at a
 * multiple of 16, even where it is refused. If `size` is 0, the host takes its room in what was given before. From then on the memory is
 * the library's, for good, also where the call is refused for another reason than that one. The answers are those of iface_new;
 * NO_MEMORY comes first where `size` is neither 0 nor enough for this host, and then the memory stays the program's. */
uint32_t iface_new_in(iface *host, const struct iface_config *config, void *memory, size_t size, size_t *wanted);

/* How much of the memory is taken now; and how much of it ever was, from its beginning to the end of the last block: less wouldn't
 * have been enough. */
size_t iface_arena_used(void);
size_t iface_arena_peak(void);

#ifdef __cplusplus
}
#endif

#endif
