// FAISS's exact index on one thread, to stand beside the engine's search where the library is installed. It measures
// squares and inner products, takes no root and breaks no ties by id: the same vectors, near enough the same work.
#include <cmath>
#include <cstddef>
#include <cstdint>
#include <faiss/IndexFlat.h>
#include <omp.h>
#include <vector>

namespace
{
std::vector<float> of_length_one(const float *v, size_t count, size_t length)
{
    std::vector<float> out(v, v + count * length);
    for (size_t n = 0; n < count; n++) {
        float *row = out.data() + n * length;
        float sum = 0;
        for (size_t i = 0; i < length; i++)
            sum += row[i] * row[i];
        for (size_t i = 0; i < length && sum > 0; i++)
            row[i] /= std::sqrt(sum);
    }
    return out;
}
} // namespace

extern "C" faiss::Index *faiss_index(const float *vectors, size_t count, size_t length, bool by_angle)
{
    omp_set_num_threads(1);
    if (!by_angle) {
        auto *index = new faiss::IndexFlatL2(static_cast<faiss::Index::idx_t>(length));
        index->add(static_cast<faiss::Index::idx_t>(count), vectors);
        return index;
    }
    auto *index = new faiss::IndexFlatIP(static_cast<faiss::Index::idx_t>(length));
    index->add(static_cast<faiss::Index::idx_t>(count), of_length_one(vectors, count, length).data());
    return index;
}

// `places` gets the nearest vectors' places, nearest first.
extern "C" void faiss_search(const faiss::Index *index, const float *query, size_t k, int64_t *places, float *distances)
{
    index->search(1, query, static_cast<faiss::Index::idx_t>(k), distances, places);
}
