// Computes the matrix profile of the numbers of its input, none of which is missing: the plain program beside which the
// scan of tiles is timed. Words: the window, and maybe `wide`. It scans many diagonals at once with sums of 64 bits, where
// these hold the sums of the input; with `wide` one diagonal after another with sums of 128 bits, which hold all.
#include <chrono>
#include <cstdint>
#include <cstdio>
#include <iostream>
#include <smmintrin.h>
#include <string>
#include <vector>

using Wide = unsigned __int128;

// how many diagonals are scanned at once, and by how many vectors of two sums
static constexpr size_t LANES = 16, VECTORS = LANES / 2;

// for each window the distance and the start of its nearest window
struct Column {
    std::vector<int64_t> dist;
    std::vector<uint64_t> index;

    // the places past the last window are never offered to
    explicit Column(size_t windows) : dist(windows + LANES, -1), index(windows + LANES, 0) {
        for (size_t i = 0; i < windows; i++) dist[i] = INT64_MAX;
    }

    void offer(size_t i, int64_t d, size_t j) {
        if (d < dist[i] || (d == dist[i] && j < index[i])) {
            dist[i] = d;
            index[i] = j;
        }
    }

    Wide sum(size_t windows) const {
        Wide sum = 0;
        for (size_t i = 0; i < windows; i++)
            sum = sum * 31 + (dist[i] == INT64_MAX ? 0 : Wide(dist[i]) * 31 + index[i] + 1);
        return sum;
    }
};

// the same with sums of 128 bits
struct WideColumn {
    std::vector<Wide> dist;
    std::vector<uint64_t> index;

    explicit WideColumn(size_t windows) : dist(windows, ~Wide(0)), index(windows, 0) {}

    void offer(size_t i, Wide d, size_t j) {
        if (d < dist[i] || (d == dist[i] && j < index[i])) {
            dist[i] = d;
            index[i] = j;
        }
    }

    Wide sum(size_t windows) const {
        Wide sum = 0;
        for (size_t i = 0; i < windows; i++)
            sum = sum * 31 + (dist[i] == ~Wide(0) ? 0 : dist[i] * 31 + index[i] + 1);
        return sum;
    }
};

struct WideScan {
    const std::vector<int64_t> &x;
    size_t m, windows;
    WideColumn left, right;

    WideScan(const std::vector<int64_t> &x, size_t m)
        : x(x), m(m), windows(x.size() + 1 - m), left(windows), right(windows) {}

    Wide square(size_t i, size_t j) const {
        int64_t gap = x[i] - x[j];
        return Wide(uint64_t(gap < 0 ? -gap : gap)) * uint64_t(gap < 0 ? -gap : gap);
    }

    // the nearest window on either side
    WideColumn nearest() const {
        WideColumn all = left;
        for (size_t i = 0; i < windows; i++) all.offer(i, right.dist[i], right.index[i]);
        return all;
    }

    // the pairs whose column comes so far behind its row
    void scan_diagonal(size_t behind) {
        Wide d = 0;
        for (size_t k = 0; k < m; k++) d += square(k, behind + k);
        for (size_t i = 0, j = behind;; i++, j++) {
            right.offer(i, d, j);
            left.offer(j, d, i);
            if (j + 1 == windows) break;
            d += square(i + m, j + m) - square(i, j);
        }
    }
};

struct Scan {
    const std::vector<int64_t> &x;
    size_t m, windows;
    // what comes in and what goes where a window moves on by one: the difference and the sum
    std::vector<int64_t> differences, sums;
    Column left, right;

    Scan(const std::vector<int64_t> &x, size_t m)
        : x(x), m(m), windows(x.size() + 1 - m), differences(windows + LANES), sums(windows + LANES), left(windows),
          right(windows) {
        for (size_t i = 0; i + m < x.size(); i++) {
            differences[i] = x[i + m] - x[i];
            sums[i] = x[i + m] + x[i];
        }
    }

    int64_t distance(size_t i, size_t j) const {
        int64_t sum = 0;
        for (size_t k = 0; k < m; k++) {
            int64_t gap = x[i + k] - x[j + k];
            sum += gap * gap;
        }
        return sum;
    }

    void offer_row(size_t i, size_t first, const int64_t *d) {
        for (size_t t = 0; t < LANES && first + t < windows; t++) {
            right.offer(i, d[t], first + t);
            left.offer(first + t, d[t], i);
        }
    }

    // the nearest window on either side
    Column nearest() const {
        Column all = left;
        for (size_t i = 0; i < windows; i++) all.offer(i, right.dist[i], right.index[i]);
        return all;
    }

    // the rows from the first on, whose first column comes so far behind
    void scan_strip(size_t behind) {
        alignas(16) int64_t d[LANES];
        for (size_t t = 0; t < LANES; t++) d[t] = behind + t < windows ? distance(0, behind + t) : 0;
        __m128i next[VECTORS];
        for (size_t v = 0; v < VECTORS; v++) next[v] = _mm_load_si128((__m128i *)d + v);
        for (size_t i = 0, j = behind; j < windows; i++, j++) {
            const __m128i row = _mm_set1_epi64x(right.dist[i]);
            const __m128i *columns = (const __m128i *)&left.dist[j];
            __m128i above = _mm_set1_epi64x(-1);
            for (size_t v = 0; v < VECTORS; v++) {
                __m128i column = _mm_loadu_si128(columns + v);
                above = _mm_and_si128(above, _mm_sub_epi64(row, next[v]));
                above = _mm_and_si128(above, _mm_sub_epi64(column, next[v]));
            }
            if (_mm_movemask_pd(_mm_castsi128_pd(above)) != 3) {
                for (size_t v = 0; v < VECTORS; v++) _mm_store_si128((__m128i *)d + v, next[v]);
                offer_row(i, j, d);
            }
            const __m128i e = _mm_set1_epi64x(differences[i]), s = _mm_set1_epi64x(sums[i]);
            const __m128i *es = (const __m128i *)&differences[j], *ss = (const __m128i *)&sums[j];
            for (size_t v = 0; v < VECTORS; v++) {
                __m128i gap = _mm_sub_epi64(_mm_loadu_si128(es + v), e);
                __m128i total = _mm_sub_epi64(_mm_loadu_si128(ss + v), s);
                next[v] = _mm_add_epi64(next[v], _mm_mul_epi32(gap, total));
            }
        }
    }
};

template <class Body> void time(size_t windows, Body body) {
    auto start = std::chrono::steady_clock::now();
    auto scan = body();
    auto time = std::chrono::steady_clock::now() - start;
    Wide sum = (scan.nearest().sum(windows) * 31 + scan.left.sum(windows)) * 31 + scan.right.sum(windows);
    printf("%016llx%016llx\n", (unsigned long long)(sum >> 64), (unsigned long long)sum);
    printf("%lld nanoseconds\n", (long long)std::chrono::duration_cast<std::chrono::nanoseconds>(time).count());
}

int main(int count, char **words) {
    if (count != 2 && (count != 3 || std::string(words[2]) != "wide")) return 1;
    std::vector<int64_t> samples;
    for (int64_t number; std::cin >> number;) samples.push_back(number);
    size_t m = std::stoul(words[1]);
    if (samples.size() < m) return 1;
    size_t windows = samples.size() + 1 - m, first = (m + 3) / 4 + 1;
    if (count == 3)
        time(windows, [&] {
            WideScan scan(samples, m);
            for (size_t behind = first; behind < windows; behind++) scan.scan_diagonal(behind);
            return scan;
        });
    else
        time(windows, [&] {
            Scan scan(samples, m);
            for (size_t behind = first; behind < windows; behind += LANES) scan.scan_strip(behind);
            return scan;
        });
}
