// Orders for the benchmark: families of random orders, and their files. Nothing here comes from the library.
#pragma once
#include <cstdint>
#include <cstdio>
#include <random>
#include <string>
#include <vector>

struct Order {
    char letter = 'e';
    int tasks = 0;
    int cores = 0;
    std::vector<int> capacity;
    std::vector<int> weight;
    std::vector<std::string> name;
    std::vector<int> need;
    std::vector<int> held;

    int& need_at(int task, int core) { return need[task * cores + core]; }
    int need_at(int task, int core) const { return need[task * cores + core]; }
    int& held_at(int task, int core) { return held[task * cores + core]; }
    int held_at(int task, int core) const { return held[task * cores + core]; }

    int total(int task) const {
        int sum = 0;
        for (int core = 0; core < cores; core++) sum += held_at(task, core);
        return sum;
    }

    int whole_need(int task) const {
        int sum = 0;
        for (int core = 0; core < cores; core++) sum += need_at(task, core);
        return sum;
    }
};

enum Family { DENSE, SPARSE, NESTED, CHAIN, FAMILIES };
static const char* const FAMILY_NAMES[FAMILIES] = {"dense", "sparse", "nested", "chain"};

// A random order of the family: `slots` is the capacity of each core, and needs reach up to it.
inline Order random_order(Family family, char letter, int tasks, int cores, int slots, unsigned seed) {
    std::mt19937 random(seed * 7919u + tasks * 131u + cores * 17u + slots * 3u + family);
    auto upto = [&](int most) { return (int)(random() % (unsigned)most) + 1; };
    Order o;
    o.letter = letter;
    o.tasks = tasks;
    o.cores = cores;
    o.capacity.assign(cores, slots);
    o.need.assign(tasks * cores, 0);
    o.held.assign(tasks * cores, 0);
    for (int task = 0; task < tasks; task++) {
        o.weight.push_back(upto(100));
        o.name.push_back("task" + std::to_string(task));
    }
    for (int task = 0; task < tasks; task++) {
        for (int core = 0; core < cores; core++) {
            bool some = false;
            switch (family) {
            case DENSE: some = true; break;
            case SPARSE: some = random() % 8 == 0; break;
            // Task t can use the first cores alone, the more the higher its number.
            case NESTED: some = core * tasks <= task * cores; break;
            // Task t can use two neighbouring cores, and most tasks crowd at the first.
            case CHAIN: {
                int first = task % 2 == 0 ? 0 : task * cores / tasks;
                some = core == first || core == first + 1;
                break;
            }
            default: break;
            }
            if (some) o.need_at(task, core) = upto(slots);
        }
    }
    return o;
}

inline void put_record(std::vector<uint8_t>& out, int kind, const std::vector<uint8_t>& body) {
    int length = 2 + (int)body.size();
    out.push_back(length & 255);
    out.push_back(length >> 8);
    out.push_back(kind);
    out.push_back(0);
    out.insert(out.end(), body.begin(), body.end());
}

// The order's file.
inline std::vector<uint8_t> file_of(const Order& o) {
    std::vector<uint8_t> out;
    int records = 0;
    auto put = [&](int kind, const std::vector<uint8_t>& body) {
        put_record(out, kind, body);
        records++;
    };
    auto low = [](int x) { return (uint8_t)(x & 255); };
    auto high = [](int x) { return (uint8_t)(x >> 8); };
    put(1, {(uint8_t)o.letter, low(o.tasks), low(o.cores)});
    for (int core = 0; core < o.cores; core++) put(2, {low(core), low(o.capacity[core]), high(o.capacity[core])});
    for (int task = 0; task < o.tasks; task++) {
        std::vector<uint8_t> body = {low(task), low(o.weight[task])};
        body.insert(body.end(), o.name[task].begin(), o.name[task].end());
        put(3, body);
    }
    for (int kind = 4; kind <= 5; kind++) {
        for (int task = 0; task < o.tasks; task++) {
            for (int core = 0; core < o.cores; core++) {
                int amount = kind == 4 ? o.need_at(task, core) : o.held_at(task, core);
                if (amount > 0) put(kind, {low(task), low(core), low(amount), high(amount)});
            }
        }
    }
    put_record(out, 6, {low(records), high(records)});
    return out;
}

// Reads a file that is known to be good.
inline Order order_of(const uint8_t* file, size_t length) {
    Order o;
    size_t at = 0;
    while (at + 4 <= length) {
        int size = file[at] | file[at + 1] << 8;
        int kind = file[at + 2];
        const uint8_t* body = file + at + 4;
        switch (kind) {
        case 1:
            o.letter = (char)body[0];
            o.tasks = body[1];
            o.cores = body[2];
            o.capacity.assign(o.cores, 0);
            o.need.assign(o.tasks * o.cores, 0);
            o.held.assign(o.tasks * o.cores, 0);
            break;
        case 2: o.capacity[body[0]] = body[1] | body[2] << 8; break;
        case 3:
            o.weight.push_back(body[1]);
            o.name.push_back(std::string((const char*)body + 2, size - 4));
            break;
        case 4: o.need_at(body[0], body[1]) = body[2] | body[3] << 8; break;
        case 5: o.held_at(body[0], body[1]) = body[2] | body[3] << 8; break;
        default: break;
        }
        at += 2 + size;
    }
    return o;
}
