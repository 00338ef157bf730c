// A plain program, without a proof, for one projection: it reads a file of an automaton over four tracks of base 2, most
// significant digit first, projects the last track, and makes the result least. It prints how many sets of states there are,
// how many residuals, and the seconds of both, to be set beside what walnut takes for the same step.
//
//     g++ -O2 -march=x86-64-v2 -o plain_projection bench/plain_projection.cpp
//     ./plain_projection "Automata Library/a.txt"
//
// The file is one that a `def` stores, as `def a "t<=n & R[i+t]!=P[j+2*n-t]";` for the statement
// `def e "At t<=n => R[i+t]=P[j+2*n-t]";`.
//
// Sets are bits in one buffer, numbered by open addressing with their hashes beside; of each state only the words with a
// bit are kept. The minimal automaton comes from rounds of hashed rows, until one parts no class. Equal hashes are taken for
// equal rows there, which walnut may not.
#include <chrono>
#include <cstdint>
#include <cstdio>
#include <cstring>
#include <fstream>
#include <string>
#include <utility>
#include <vector>

using Word = uint64_t;

constexpr int LETTERS = 8;
constexpr uint32_t NOWHERE = UINT32_MAX;

struct Edge {
    int letter, target;
};

struct Automaton {
    std::vector<int> accepts;
    std::vector<std::vector<Edge>> rows;
};

static Word mixed(Word hash, Word number) {
    Word product = (hash ^ number) * 0x9E3779B97F4A7C15ull;
    return product ^ (product >> 32);
}

// The automaton of a file, its last track left out of the letters.
static Automaton automaton_of(const char *path) {
    Automaton it;
    std::ifstream file(path);
    std::string line;
    std::getline(file, line);
    size_t state = 0;
    while (std::getline(file, line)) {
        int a, b, c, d, target, output;
        if (std::sscanf(line.c_str(), "%d %d %d %d -> %d", &a, &b, &c, &d, &target) == 5) {
            it.rows[state].push_back({4 * a + 2 * b + c, target});
        } else if (std::sscanf(line.c_str(), "%zu %d", &state, &output) == 2) {
            it.accepts.resize(state + 1);
            it.rows.resize(state + 1);
            it.accepts[state] = output;
        }
    }
    return it;
}

// Sets as bits of so many words each, numbered as they come.
struct Sets {
    size_t width, mask = 1023;
    std::vector<Word> bits;
    std::vector<uint32_t> hashes, slots;

    explicit Sets(size_t words) : width(words), slots(mask + 1) {}

    size_t size() const { return hashes.size(); }

    void put(uint32_t hash, uint32_t link) {
        size_t place = hash & mask;
        while (slots[place]) place = (place + 1) & mask;
        slots[place] = link;
    }

    uint32_t number_of(const Word *set) {
        Word whole = width;
        for (size_t word = 0; word < width; word++) whole = mixed(whole, set[word]);
        uint32_t hash = whole >> 32;
        for (size_t place = hash & mask; slots[place]; place = (place + 1) & mask) {
            size_t number = slots[place] - 1;
            if (hashes[number] == hash && !std::memcmp(&bits[number * width], set, width * sizeof(Word))) return number;
        }
        bits.insert(bits.end(), set, set + width);
        hashes.push_back(hash);
        put(hash, size());
        if (2 * size() > mask) {
            mask = 2 * mask + 1;
            slots.assign(mask + 1, 0);
            for (size_t number = 0; number < size(); number++) put(hashes[number], number + 1);
        }
        return size() - 1;
    }
};

struct Table {
    std::vector<uint32_t> next;
    std::vector<char> accepts;
};

// The first set: what leading zeros lead to.
static std::vector<Word> first_set(const Automaton &of, size_t width) {
    std::vector<Word> set(width);
    std::vector<int> open = {0};
    set[0] = 1;
    while (!open.empty()) {
        int state = open.back();
        open.pop_back();
        for (const Edge &edge : of.rows[state]) {
            Word bit = Word(1) << edge.target % 64, &word = set[edge.target / 64];
            if (edge.letter == 0 && !(word & bit)) {
                word |= bit;
                open.push_back(edge.target);
            }
        }
    }
    return set;
}

static Table sets_of(const Automaton &of) {
    size_t states = of.rows.size(), width = (states + 63) / 64;
    std::vector<Word> accepting(width);
    std::vector<std::vector<std::pair<int, Word>>> rows(states);
    for (size_t state = 0; state < states; state++) {
        if (of.accepts[state]) accepting[state / 64] |= Word(1) << state % 64;
        std::vector<Word> row(LETTERS * width);
        for (const Edge &edge : of.rows[state]) row[edge.letter * width + edge.target / 64] |= Word(1) << edge.target % 64;
        for (size_t word = 0; word < row.size(); word++)
            if (row[word]) rows[state].push_back({int(word), row[word]});
    }
    Sets sets(width);
    sets.number_of(first_set(of, width).data());
    Table made;
    std::vector<Word> after(LETTERS * width);
    for (size_t set = 0; set < sets.size(); set++) {
        std::fill(after.begin(), after.end(), 0);
        bool accepts = false;
        for (size_t word = 0; word < width; word++) {
            Word members = sets.bits[set * width + word];
            accepts |= (members & accepting[word]) != 0;
            for (; members; members &= members - 1)
                for (auto &[place, bits] : rows[64 * word + __builtin_ctzll(members)]) after[place] |= bits;
        }
        made.accepts.push_back(accepts);
        for (int letter = 0; letter < LETTERS; letter++) {
            const Word *next = &after[letter * width];
            bool some = false;
            for (size_t word = 0; word < width; word++) some |= next[word] != 0;
            made.next.push_back(some ? sets.number_of(next) : NOWHERE);
        }
    }
    return made;
}

// How many classes rounds leave, the sink's among them.
static size_t classes_of(const Table &of) {
    size_t states = of.accepts.size(), count = 2;
    std::vector<uint32_t> classes(of.accepts.begin(), of.accepts.end()), next(states + 1);
    classes.push_back(0);
    for (;;) {
        Sets hashes(1);
        for (size_t state = 0; state <= states; state++) {
            Word hash = mixed(0, classes[state]);
            for (int letter = 0; letter < LETTERS; letter++) {
                uint32_t to = state == states ? NOWHERE : of.next[state * LETTERS + letter];
                hash = mixed(hash, classes[to == NOWHERE ? states : to]);
            }
            next[state] = hashes.number_of(&hash);
        }
        classes.swap(next);
        if (hashes.size() == count) return count;
        count = hashes.size();
    }
}

int main(int, char **words) {
    Automaton automaton = automaton_of(words[1]);
    auto begun = std::chrono::steady_clock::now();
    Table table = sets_of(automaton);
    auto made = std::chrono::steady_clock::now();
    size_t classes = classes_of(table);
    auto ended = std::chrono::steady_clock::now();
    auto seconds = [](auto from, auto to) { return std::chrono::duration<double>(to - from).count(); };
    std::printf("%zu sets in %.3f s, %zu classes in %.3f s\n", table.accepts.size(), seconds(begun, made), classes, seconds(made, ended));
}
