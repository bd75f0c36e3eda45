/* That the numbers of the headers fit together; nothing of this is left in the program. */
#include "catalogue_images.h"

_Static_assert(CATALOGUE_VERSION ==
                   CATALOGUE_VERSION_MAJOR * 1000000u + CATALOGUE_VERSION_MINOR * 1000u + CATALOGUE_VERSION_PATCH,
               "the version's number");

/* Each table ends where the next begins, the last one with its image. */
_Static_assert(CATALOGUE_NODE_ADDRESS + CATALOGUE_TEXT_BYTES + CATALOGUE_ADDRESS_MOST == CATALOGUE_NODE_SIZE,
               "a node of the map");
_Static_assert(CATALOGUE_KEY_NUMBER == CATALOGUE_TEXT_BYTES + CATALOGUE_NAME_MOST, "a key");
_Static_assert(CATALOGUE_SHARD_REPLICAS + CATALOGUE_REPLICAS_MOST * CATALOGUE_REPLICA_SIZE == CATALOGUE_SHARD_SYNC,
               "a shard's replicas");
_Static_assert(CATALOGUE_SHARD_SYNC + CATALOGUE_REPLICAS_MOST * 8 == CATALOGUE_SHARD_SIZE, "a shard of the map");
_Static_assert(CATALOGUE_MAP_NODES + CATALOGUE_NODES_MOST * CATALOGUE_NODE_SIZE == CATALOGUE_MAP_COLLECTIONS, "nodes");
_Static_assert(CATALOGUE_MAP_COLLECTIONS + CATALOGUE_COLLECTIONS_MOST * CATALOGUE_COLLECTION_SIZE ==
                   CATALOGUE_MAP_SHARDS,
               "collections");
_Static_assert(CATALOGUE_MAP_SHARDS + CATALOGUE_SHARDS_MOST * CATALOGUE_SHARD_SIZE == CATALOGUE_MAP_SESSIONS, "shards");
_Static_assert(CATALOGUE_MAP_SESSIONS + CATALOGUE_SESSIONS_MOST * CATALOGUE_SESSION_SIZE == CATALOGUE_MAP, "sessions");
_Static_assert(CATALOGUE_HELD_REPLICAS + CATALOGUE_REPLICAS_MOST * CATALOGUE_REPLICA_SIZE == CATALOGUE_HELD_PEERS,
               "a held shard's replicas");
_Static_assert(CATALOGUE_HELD_PEERS + CATALOGUE_PEERS_MOST * CATALOGUE_PEER_SIZE == CATALOGUE_HELD_SIZE,
               "a held shard");
_Static_assert(CATALOGUE_HEADER_HELD + CATALOGUE_HELD_MOST * CATALOGUE_HELD_SIZE == CATALOGUE_HEADER, "held shards");
_Static_assert(CATALOGUE_STORE_PATTERNS + CATALOGUE_ENTRIES_MOST * CATALOGUE_FLOATS_MOST * 4 == CATALOGUE_STORE_KEYS,
               "patterns");
_Static_assert(CATALOGUE_STORE_PLACES + CATALOGUE_ENTRIES_MOST * 8 == CATALOGUE_STORE, "places");
_Static_assert(CATALOGUE_SLOTS *CATALOGUE_STORE == CATALOGUE_STORES, "stores");
