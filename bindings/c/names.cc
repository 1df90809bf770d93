/* The header from C++: each answer by its name, and each size that has one. */
#include "moorspindle.h"

#include <array>
#include <iostream>
#include <vector>

static int wrong = 0;

static void is(const char *what, uint64_t found, uint64_t meant)
{
    if (found == meant)
        return;
    std::cout << what << ": " << found << ", and it must be " << meant << '\n';
    wrong++;
}

static const std::array<double, 6> wcs{0, 0, 1, 0, 0, 1};

/* The answers of small lists. */
static void answers()
{
    std::array<double, 2> one{0.0, 1.0};
    std::array<uint8_t, 5> bytes{};
    double rms = 7.0;
    is("rms", moorspindle_rms_error(one.data(), one.size(), &rms), MOORSPINDLE_DONE);
    is("lengths", moorspindle_weighted_rms_error(one.data(), 2, one.data(), 1, &rms),
            MOORSPINDLE_LENGTHS);
    is("value", moorspindle_orient_spine(2e6, 0.0, 0, 0.0, 0.0, 1, bytes.data(), 2),
            MOORSPINDLE_VALUE);
    is("place", moorspindle_find_spine(one.data(), 2, one.data(), 2, 0, 1, 0, 2, bytes.data(), 4),
            MOORSPINDLE_PLACE);
    is("room", moorspindle_combinations_4(4, bytes.data(), 4), MOORSPINDLE_ROOM);
    std::array<double, 1> zero{}, x{};
    is("degenerate",
            moorspindle_solve_normal_equations(zero.data(), 1, zero.data(), 1, 1, x.data(), 1),
            MOORSPINDLE_DEGENERATE);
    std::array<double, 4> hash{};
    uint64_t found = 7;
    is("index", moorspindle_find_matches_indexed(nullptr, 0, nullptr, 0,
            bytes.data(), 4, hash.data(), 4, nullptr, 0, nullptr, 0, &found), MOORSPINDLE_INDEX);
}

/* The answers of a plate: of its run, its fit and its record. */
static void answers_of_plates()
{
    std::array<double, 3> px{0, 1, 0}, py{0, 0, 1};
    std::array<uint32_t, 3> votes{2, 2, 2};
    std::array<uint8_t, 3> mask{};
    uint8_t tested = 7;
    uint64_t count = 7;
    auto run = [&](uint32_t trials) {
        return moorspindle_ransac_fit(px.data(), 3, py.data(), 3, px.data(), 3, py.data(), 3,
                votes.data(), 3, 1.0, trials, mask.data(), 3, &tested, &count);
    };
    is("a run", run(1000), MOORSPINDLE_DONE);
    is("few", run(0), MOORSPINDLE_FEW);

    std::array<double, MOORSPINDLE_MOST_TERMS> a{}, b{};
    std::array<double, 3> sums{};
    auto fit = [&](uint32_t order) {
        return moorspindle_fit_sip(nullptr, 0, nullptr, 0, nullptr, 0, nullptr, 0, nullptr, 0,
                wcs.data(), wcs.size(), order, a.data(), a.size(), b.data(), b.size(),
                &count, sums.data(), sums.size());
    };
    is("order", fit(6), MOORSPINDLE_ORDER);
    is("rows", fit(5), MOORSPINDLE_ROWS);

    std::array<double, 6> plate{};
    uint32_t format = 7, order = 7;
    uint64_t line = 7;
    is("form", moorspindle_read_record(nullptr, 0, &format, &count, plate.data(), plate.size(),
            &order, a.data(), a.size(), b.data(), b.size(), sums.data(), sums.size(), &line),
            MOORSPINDLE_FORM);
    is("the wrong line", line, 1);
}

/* A size that is needed is enough, and one less is not; of the most, one more is too many. */
static void sizes()
{
    std::array<uint64_t, MOORSPINDLE_KEYS> keys{};
    auto all = [&](size_t room) {
        return moorspindle_discrete_hash_key_neighbors(0, 0, 0, 0, keys.data(), room);
    };
    is("keys", all(keys.size()), MOORSPINDLE_DONE);
    is("a key less", all(keys.size() - 1), MOORSPINDLE_ROOM);
    is("the key itself", keys[40], moorspindle_discrete_hash_key(0, 0, 0, 0));

    std::vector<double> errors(MOORSPINDLE_MOST_ROWS + 1);
    double rms = 7.0;
    auto mean = [&](size_t rows) { return moorspindle_rms_error(errors.data(), rows, &rms); };
    is("the most rows", mean(MOORSPINDLE_MOST_ROWS), MOORSPINDLE_DONE);
    is("a row more", mean(MOORSPINDLE_MOST_ROWS + 1), MOORSPINDLE_COUNT);

    std::vector<double> hashes(4 * (MOORSPINDLE_MOST_QUADS + 1));
    std::vector<uint64_t> table(2 * (MOORSPINDLE_MOST_QUADS + 1));
    auto index = [&](size_t quads) {
        return moorspindle_build_hash_index(hashes.data(), 4 * quads, table.data(), table.size());
    };
    is("the index", index(MOORSPINDLE_MOST_QUADS), MOORSPINDLE_DONE);
    is("a quad more", index(MOORSPINDLE_MOST_QUADS + 1), MOORSPINDLE_COUNT);
}

/* The longest record has every term of order 5. */
static void longest_record()
{
    std::array<double, MOORSPINDLE_MOST_TERMS> terms{};
    std::array<double, 3> sums{};
    std::array<uint8_t, MOORSPINDLE_MOST_RECORD> text{};
    uint64_t written = 0;
    terms.fill(1.0);
    auto record = [&](size_t count, size_t room) {
        return moorspindle_write_record(MOORSPINDLE_MOST_ROWS, wcs.data(), wcs.size(), 5,
                terms.data(), count, terms.data(), count, sums.data(), sums.size(),
                text.data(), room, &written);
    };
    is("a term less", record(terms.size() - 1, text.size()), MOORSPINDLE_LENGTHS);
    is("a byte less", record(terms.size(), text.size() - 1), MOORSPINDLE_ROOM);
    is("the longest record", record(terms.size(), text.size()), MOORSPINDLE_DONE);
    is("its bytes", written, MOORSPINDLE_MOST_RECORD);
}

int main()
{
    answers();
    answers_of_plates();
    sizes();
    longest_record();
    std::cout << "names: " << wrong << " wrong\n";
    return wrong != 0;
}
