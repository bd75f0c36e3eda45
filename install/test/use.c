/* A program of somebody who has the engine installed: one map, one collection, in C. Status 0 if all is as it should.
 */
#include <catalogue.h>
#include <catalogue_images.h>
#include <catalogue_messages.h>
#include <catalogue_words.h>
#include <stdio.h>

int main(void)
{
    static uint8_t map[CATALOGUE_MAP];
    struct catalogue_stamp by = {1, 1, 1};
    struct catalogue_message request;
    if (catalogue_version() != CATALOGUE_VERSION) {
        puts("the library has another version than the header");
        return 1;
    }
    if (catalogue_empty_map(map, sizeof map) != CATALOGUE_DONE)
        return 2;
    catalogue_make_register(&request, by, 7, "projector", 1);
    if (catalogue_apply(map, sizeof map, request.bytes, request.len) != CATALOGUE_DONE)
        return 3;
    if (catalogue_u64(map + CATALOGUE_MAP_NODES + CATALOGUE_NODE_ID) != 7)
        return 4;
    if (catalogue_apply(map, sizeof map, request.bytes, 3) != CATALOGUE_UNDECODABLE)
        return 5;
    printf("C: version %d.%d.%d, id 42 of 4 shards is in shard %u; 21: %s\n", CATALOGUE_VERSION_MAJOR,
           CATALOGUE_VERSION_MINOR, CATALOGUE_VERSION_PATCH, (unsigned)catalogue_shard_of(42, 4),
           catalogue_refusal(CATALOGUE_UNDECODABLE));
    return 0;
}
