// nanoflann's tree, in 64-bit floats.
#include <nanoflann.hpp>

#include <cstddef>
#include <cstdint>
#include <vector>

namespace {

struct Vectors {
    size_t d;
    std::vector<double> values;

    size_t kdtree_get_point_count() const { return values.size() / d; }
    double kdtree_get_pt(size_t i, size_t j) const { return values[i * d + j]; }
    template <class Box> bool kdtree_get_bbox(Box &) const { return false; }
};

using Tree = nanoflann::KDTreeSingleIndexAdaptor<nanoflann::L2_Adaptor<double, Vectors>, Vectors, -1, uint32_t>;

struct Index {
    Vectors vectors;
    Tree tree;

    Index(size_t d, size_t n, const int32_t *from)
        : vectors{d, std::vector<double>(from, from + n * d)}, tree(static_cast<int>(d), vectors) {
        tree.buildIndex();
    }
};

} // namespace

extern "C" void *bench_nanoflann_new(size_t d, size_t n, const int32_t *vectors) {
    return new Index(d, n, vectors);
}

extern "C" void bench_nanoflann_search(void *handle, const int32_t *query, size_t k, uint32_t *numbers, double *distances) {
    auto *index = static_cast<Index *>(handle);
    std::vector<double> values(query, query + index->vectors.d);
    index->tree.knnSearch(values.data(), k, numbers, distances);
}

extern "C" void bench_nanoflann_free(void *handle) {
    delete static_cast<Index *>(handle);
}
