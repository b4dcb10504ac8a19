// FAISS's flat index: every distance of a query, in 32-bit floats.
#include <faiss/IndexFlat.h>

#include <cstddef>
#include <cstdint>
#include <vector>

// the type of a vector's number, which moves between versions of FAISS
using idx_t = decltype(faiss::IndexFlatL2::ntotal);

extern "C" void *bench_faiss_new(size_t d, size_t n, const int32_t *vectors) {
    std::vector<float> values(vectors, vectors + n * d);
    auto *index = new faiss::IndexFlatL2(static_cast<int>(d));
    index->add(static_cast<idx_t>(n), values.data());
    return index;
}

extern "C" void bench_faiss_search(void *handle, const int32_t *query, size_t k, uint32_t *numbers, double *distances) {
    auto *index = static_cast<faiss::IndexFlatL2 *>(handle);
    std::vector<float> values(query, query + index->d);
    std::vector<float> found(k);
    std::vector<idx_t> labels(k);
    index->search(1, values.data(), static_cast<idx_t>(k), found.data(), labels.data());
    for (size_t i = 0; i < k; i++) {
        numbers[i] = static_cast<uint32_t>(labels[i]);
        distances[i] = found[i];
    }
}

extern "C" void bench_faiss_free(void *handle) {
    delete static_cast<faiss::IndexFlatL2 *>(handle);
}
