// Appends the numbers of its input to a series one by one and keeps the matrix profile of windows without missing samples:
// the plain program beside which the appends of a stream are timed. Words: the bits of a sum, 64 or 128, and the window.
#include <chrono>
#include <cstdint>
#include <cstdio>
#include <cstdlib>
#include <iostream>
#include <string>
#include <vector>

using Wide = unsigned __int128;

// for each window the distance and the start of its nearest window
template <typename Sum>
struct Column {
    // above every sum, and half of the numbers lie below it
    static constexpr Sum NONE = Sum(1) << (8 * sizeof(Sum) - 1);
    std::vector<Sum> dist;
    std::vector<uint64_t> index;

    void grow() {
        dist.push_back(NONE);
        index.push_back(0);
    }

    void offer(size_t i, Sum d, size_t j) {
        if (d < dist[i]) {
            dist[i] = d;
            index[i] = j;
        }
    }

    Wide sum() const {
        Wide sum = 0;
        for (size_t i = 0; i < dist.size(); i++)
            sum = sum * 31 + (dist[i] == NONE ? 0 : Wide(dist[i]) * 31 + index[i] + 1);
        return sum;
    }
};

static inline uint64_t square(int32_t x, int32_t y) {
    uint64_t gap = x < y ? uint32_t(y) - uint32_t(x) : uint32_t(x) - uint32_t(y);
    return gap * gap;
}

template <typename Sum>
struct Series {
    static constexpr size_t GROUP = 32;
    size_t m;
    std::vector<int32_t> x;
    std::vector<Sum> row, next;
    Column<Sum> all, left, right;

    // the sum of window i with the window at j, for i above 0
    Sum moved(size_t i, size_t j) const {
        return row[i - 1] + square(x[j + m - 1], x[i + m - 1]) - square(x[j - 1], x[i - 1]);
    }

    void offer(size_t i, size_t j) {
        if (next[i] < right.dist[i]) {
            right.dist[i] = next[i];
            right.index[i] = j;
            all.offer(i, next[i], j);
        }
        if (next[i] < left.dist[j]) {
            left.dist[j] = next[i];
            left.index[j] = i;
        }
    }

    void append(int32_t sample) {
        x.push_back(sample);
        if (x.size() < m) return;
        size_t j = x.size() - m, zone = (m + 3) / 4, end = j < zone ? 0 : j - zone;
        row.push_back(0);
        next.push_back(0);
        all.grow();
        left.grow();
        right.grow();
        Sum first = 0;
        for (size_t k = 0; k < m; k++) first += square(x[k], x[j + k]);
        next[0] = first;
        if (0 < end) offer(0, j);
        size_t i = 1;
        for (; i + GROUP <= end; i += GROUP) {
            Sum below = 0;
            const Sum best = left.dist[j];
            const int32_t enters = x[j + m - 1], leaves = x[j - 1];
            const int32_t *in = &x[m - 1], *out = x.data();
            const Sum *before = row.data(), *limits = right.dist.data();
            Sum *sums = next.data();
            for (size_t k = i; k < i + GROUP; k++) {
                Sum sum = before[k - 1] + square(enters, in[k]) - square(leaves, out[k - 1]);
                sums[k] = sum;
                below |= (sum - limits[k]) | (sum - best);
            }
            if (below >> (8 * sizeof(Sum) - 1))
                for (size_t k = i; k < i + GROUP; k++) offer(k, j);
        }
        for (; i < end; i++) {
            next[i] = moved(i, j);
            offer(i, j);
        }
        for (; i <= j; i++) next[i] = moved(i, j);
        all.offer(j, left.dist[j], left.index[j]);
        std::swap(row, next);
    }
};

template <typename Sum>
static void run(size_t m, const std::vector<int32_t> &samples) {
    Series<Sum> series{m};
    auto start = std::chrono::steady_clock::now();
    for (int32_t sample : samples) series.append(sample);
    auto time = std::chrono::steady_clock::now() - start;
    Wide sum = (series.all.sum() * 31 + series.left.sum()) * 31 + series.right.sum();
    printf("%016llx%016llx\n", (unsigned long long)(sum >> 64), (unsigned long long)sum);
    printf("%lld nanoseconds\n", (long long)std::chrono::duration_cast<std::chrono::nanoseconds>(time).count());
}

int main(int count, char **words) {
    if (count != 3) return 1;
    std::vector<int32_t> samples;
    for (int32_t number; std::cin >> number;) samples.push_back(number);
    size_t m = std::stoul(words[2]);
    if (std::string(words[1]) == "64")
        run<uint64_t>(m, samples);
    else
        run<Wide>(m, samples);
}
