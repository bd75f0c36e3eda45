// A program of somebody who has the engine installed: one map, one node, in C++. Status 0 if all is as it should.
#include <catalogue.h>
#include <catalogue_images.h>
#include <catalogue_messages.h>
#include <catalogue_words.h>

#include <iostream>
#include <vector>

int main()
{
    std::vector<uint8_t> map(CATALOGUE_MAP), header(CATALOGUE_HEADER);
    catalogue_message request;
    if (catalogue_version() != CATALOGUE_VERSION) {
        std::cout << "the library has another version than the header\n";
        return 1;
    }
    if (catalogue_empty_map(map.data(), map.size()) != CATALOGUE_DONE)
        return 2;
    catalogue_make_register(&request, catalogue_stamp{1, 1, 1}, 7, "projector", 1);
    if (catalogue_apply(map.data(), map.size(), request.bytes, request.len) != CATALOGUE_DONE)
        return 3;
    if (catalogue_fresh_node(header.data(), header.size(), 7, 1) != CATALOGUE_DONE)
        return 4;
    if (catalogue_u64(header.data() + CATALOGUE_HEADER_ID) != 7)
        return 5;
    std::cout << "C++: version " << CATALOGUE_VERSION_MAJOR << '.' << CATALOGUE_VERSION_MINOR << '.'
              << CATALOGUE_VERSION_PATCH << ", id 42 of 4 shards is in shard " << catalogue_shard_of(42, 4) << '\n';
    return 0;
}
