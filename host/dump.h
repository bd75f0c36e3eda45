/* The state as `replay` prints it, read from the images, for replay.c. Counts, lengths and codes that no state of the
 * engine has end the program (print.h, fail): a dump cannot be refused. */
#ifndef CATALOGUE_HOST_DUMP_H
#define CATALOGUE_HOST_DUMP_H

#include <stdint.h>

void print_map(const uint8_t *map);
void print_node(const uint8_t *header, const uint8_t *refused);

/* The held shard of a key as on the wire, which decodes; `none` if the node does not hold it. */
void print_held(const uint8_t *header, const uint8_t *stores, const uint8_t *key);

#endif
