// Other libraries behind plain functions, for bench/src: nanoflann's k-d tree, FAISS's flat index, libspatialindex's R*-tree.
// Each is built once over n points of d coordinates and asked for the k nearest; one thread.
#include <cstddef>
#include <cstdint>
#include <vector>

#include <faiss/IndexFlat.h>
#include <nanoflann.hpp>
#include <omp.h>
#include <spatialindex/SpatialIndex.h>

namespace {

// nanoflann over whole numbers as doubles, so that its distances are exact.
struct Cloud {
    const std::vector<double>& coords;
    size_t d;
    size_t kdtree_get_point_count() const { return coords.size() / d; }
    double kdtree_get_pt(size_t i, size_t j) const { return coords[i * d + j]; }
    template <class B> bool kdtree_get_bbox(B&) const { return false; }
};
using Metric = nanoflann::L2_Simple_Adaptor<double, Cloud>;
using Tree = nanoflann::KDTreeSingleIndexAdaptor<Metric, Cloud, -1, uint32_t>;

struct KdTree {
    std::vector<double> coords;
    Cloud cloud;
    Tree tree;
    KdTree(const int16_t* p, size_t n, size_t d)
        : coords(p, p + n * d), cloud{coords, d},
          tree(d, cloud, nanoflann::KDTreeSingleIndexAdaptorParams(16)) {
        tree.buildIndex();
    }
};

struct Flat {
    faiss::IndexFlatL2 index;
    Flat(const int16_t* p, size_t n, size_t d) : index(d) {
        std::vector<float> coords(p, p + n * d);
        index.add(n, coords.data());
    }
};

// The R*-tree has at least 2 coordinates: a point of one gets a 0.
uint32_t wide(size_t d) { return d < 2 ? 2 : d; }

// The points, each with its place, as a stream for the R*-tree's bulk loading.
class Stream : public SpatialIndex::IDataStream {
  public:
    Stream(const int16_t* p, size_t n, size_t d) : p_(p), n_(n), d_(d), at_(0) {}
    SpatialIndex::IData* getNext() override {
        std::vector<double> c(p_ + at_ * d_, p_ + at_ * d_ + d_);
        c.resize(wide(d_));
        SpatialIndex::Region r(c.data(), c.data(), wide(d_));
        return new SpatialIndex::RTree::Data(0, nullptr, r, at_++);
    }
    bool hasNext() override { return at_ < n_; }
    uint32_t size() override { return n_; }
    void rewind() override { at_ = 0; }

  private:
    const int16_t* p_;
    size_t n_, d_, at_;
};

// The places of the first k that a nearest-neighbour query visits.
class Visitor : public SpatialIndex::IVisitor {
  public:
    std::vector<int64_t> found;
    void visitNode(const SpatialIndex::INode&) override {}
    void visitData(const SpatialIndex::IData& x) override { found.push_back(x.getIdentifier()); }
    void visitData(std::vector<const SpatialIndex::IData*>&) override {}
};

struct RTree {
    SpatialIndex::IStorageManager* store;
    SpatialIndex::ISpatialIndex* tree;
    size_t d;
    RTree(const int16_t* p, size_t n, size_t dim) : d(dim) {
        store = SpatialIndex::StorageManager::createNewMemoryStorageManager();
        Stream points(p, n, d);
        SpatialIndex::id_type id;
        tree = SpatialIndex::RTree::createAndBulkLoadNewRTree(
            SpatialIndex::RTree::BLM_STR, points, *store, 0.7, 16, 16, wide(d),
            SpatialIndex::RTree::RV_RSTAR, id);
    }
    ~RTree() {
        delete tree;
        delete store;
    }
};

} // namespace

extern "C" {
void* kd_new(const int16_t* p, size_t n, size_t d) { return new KdTree(p, n, d); }
void kd_free(void* t) { delete static_cast<KdTree*>(t); }
// The k-th squared distance.
double kd_ask(void* t, const int16_t* q, size_t k) {
    auto* kd = static_cast<KdTree*>(t);
    double point[16];
    for (size_t j = 0; j < kd->cloud.d; j++) point[j] = q[j];
    uint32_t ids[64];
    double distances[64];
    size_t n = kd->tree.knnSearch(point, k, ids, distances);
    return n == 0 ? 0 : distances[n - 1];
}

void* flat_new(const int16_t* p, size_t n, size_t d) {
    omp_set_num_threads(1);
    return new Flat(p, n, d);
}
void flat_free(void* t) { delete static_cast<Flat*>(t); }
double flat_ask(void* t, const int16_t* q, size_t k) {
    auto* flat = static_cast<Flat*>(t);
    float point[16];
    for (int j = 0; j < flat->index.d; j++) point[j] = q[j];
    float distances[64];
    faiss::Index::idx_t ids[64];
    flat->index.search(1, point, k, distances, ids);
    return distances[k - 1];
}

void* rtree_new(const int16_t* p, size_t n, size_t d) { return new RTree(p, n, d); }
void rtree_free(void* t) { delete static_cast<RTree*>(t); }
// The number of points found: k, or more where distances are equal.
double rtree_ask(void* t, const int16_t* q, size_t k) {
    auto* r = static_cast<RTree*>(t);
    double point[16] = {0};
    for (size_t j = 0; j < r->d; j++) point[j] = q[j];
    Visitor v;
    SpatialIndex::Point at(point, wide(r->d));
    r->tree->nearestNeighborQuery(k, at, v);
    return static_cast<double>(v.found.size());
}
}
