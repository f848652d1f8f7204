// Bikstaru against a plain levelling on the same orders: times, moves, and how the cost grows. It fails where the lists of
// levels differ. `bench/run.sh` builds and runs it.
#include "../include/bikstaru.h"
#include "orders.hpp"
#include "plain.hpp"
#include <algorithm>
#include <chrono>
#include <cstdlib>
#include <cstring>
#include <fcntl.h>
#include <spawn.h>
#include <sys/wait.h>
#include <unistd.h>

static double now_us() {
    using namespace std::chrono;
    return duration<double, std::micro>(steady_clock::now().time_since_epoch()).count();
}

static uint8_t buffer[BIKSTARU_LONGEST_FILE];

// Each task's level as a fraction, in rising order.
static std::vector<std::pair<int, int>> levels_of(const Order& o) {
    std::vector<std::pair<int, int>> levels;
    for (int task = 0; task < o.tasks; task++) {
        int whole = o.whole_need(task);
        int divisor = o.letter == 'w' ? o.weight[task] : o.letter == 'n' ? (whole > 0 ? whole : 1) : 1;
        levels.push_back({o.total(task), divisor});
    }
    std::sort(levels.begin(), levels.end(), [](std::pair<int, int> a, std::pair<int, int> b) {
        return (long)a.first * b.second < (long)b.first * a.second;
    });
    return levels;
}

static bool same_levels(const Order& a, const Order& b) {
    auto x = levels_of(a);
    auto y = levels_of(b);
    for (size_t i = 0; i < x.size(); i++) {
        if ((long)x[i].first * y[i].second != (long)y[i].first * x[i].second) return false;
    }
    return true;
}

static bool feasible(const Order& o) {
    for (int core = 0; core < o.cores; core++) {
        int given = 0;
        for (int task = 0; task < o.tasks; task++) {
            if (o.held_at(task, core) < 0 || o.held_at(task, core) > o.need_at(task, core)) return false;
            given += o.held_at(task, core);
        }
        if (given > o.capacity[core]) return false;
    }
    return true;
}

struct Times {
    double ours = 0;
    double plain = 0;
    double changed = 0;
    double judged = 0;
    double read = 0;
    double worst = 0;
    long moves = 0;
    int orders = 0;

    void add(const Times& t) {
        ours += t.ours;
        plain += t.plain;
        changed += t.changed;
        judged += t.judged;
        read += t.read;
        worst = std::max(worst, t.worst);
        moves += t.moves;
        orders += t.orders;
    }
};

static bool differ = false;

// Halves the need of a task at a core, and takes away what it holds there above that.
static void change_one(Order& o, int turn) {
    for (int i = 0; i < o.tasks * o.cores; i++) {
        int at = (i + 7 * turn + 3) % (o.tasks * o.cores);
        if (o.held[at] > 1) {
            o.need[at] = (o.need[at] + 1) / 2;
            o.held[at] = std::min(o.held[at], o.need[at]);
            return;
        }
    }
}

// Both take the bytes of a file and give back the bytes of the file with its plan. The least of a few turns counts.
static Times measure(const Order& order, int turns) {
    std::vector<uint8_t> file = file_of(order);
    Times t;
    t.orders = 1;
    t.ours = t.plain = t.changed = t.judged = t.read = 1e18;
    std::vector<uint8_t> plan;
    Order plain_plan;
    for (int turn = 0; turn < turns; turn++) {
        double start = now_us();
        bikstaru_answer answer = bikstaru_plan(file.data(), file.size(), buffer, sizeof buffer);
        t.ours = std::min(t.ours, now_us() - start);
        if (answer.number != 0) {
            printf("refused %d\n", answer.number);
            exit(1);
        }
        plan.assign(buffer, buffer + answer.length);

        start = now_us();
        plain_plan = order_of(file.data(), file.size());
        PlainLeveller plain;
        plain.level(plain_plan);
        std::vector<uint8_t> written = file_of(plain_plan);
        t.plain = std::min(t.plain, now_us() - start);
        t.moves = plain.moves;

        // One need of a plan that is fairest has changed, and the slots that no longer fit are gone.
        Order changed = order_of(plan.data(), plan.size());
        change_one(changed, turn);
        std::vector<uint8_t> changed_file = file_of(changed);
        start = now_us();
        answer = bikstaru_plan(changed_file.data(), changed_file.size(), buffer, sizeof buffer);
        t.changed = std::min(t.changed, now_us() - start);
        Order changed_plan = order_of(buffer, answer.length);
        plain.level(changed);
        if (answer.number != 0 || !feasible(changed_plan) || !same_levels(changed_plan, changed)) {
            printf("the levels differ after a change\n");
            differ = true;
        }

        start = now_us();
        bikstaru_step route[BIKSTARU_MOST_STEPS];
        bikstaru_judgement verdict = bikstaru_judge(plan.data(), plan.size(), route, BIKSTARU_MOST_STEPS);
        t.judged = std::min(t.judged, now_us() - start);
        if (verdict.answer.number != 0 || verdict.verdict != BIKSTARU_PASSED) {
            printf("the judge does not pass a plan\n");
            differ = true;
        }
        start = now_us();
        bikstaru_check(plan.data(), plan.size());
        t.read = std::min(t.read, now_us() - start);
    }
    t.worst = t.ours / t.plain;
    Order ours = order_of(plan.data(), plan.size());
    if (!feasible(ours) || !same_levels(ours, plain_plan)) {
        printf("the levels differ: letter %c, %d tasks, %d cores, %d slots\n", order.letter, order.tasks, order.cores, order.capacity[0]);
        differ = true;
    }
    return t;
}

static void print_line(const char* label, const Times& t) {
    double k = t.orders;
    printf("%-22s %9.0f %9.0f %7.2f %7.2f %9.0f %9.0f %9.0f %9.0f\n", label, t.ours / k, t.plain / k, t.ours / t.plain, t.worst, t.changed / k, t.judged / k, t.read / k, (double)t.moves / k);
}

// Runs a program with the file as its standard input, and gives what it prints and how long it took.
static double run_program(const char* path, const char* input, std::string& printed) {
    int ends[2];
    if (pipe(ends) != 0) exit(1);
    posix_spawn_file_actions_t actions;
    posix_spawn_file_actions_init(&actions);
    posix_spawn_file_actions_addopen(&actions, 0, input, O_RDONLY, 0);
    posix_spawn_file_actions_adddup2(&actions, ends[1], 1);
    posix_spawn_file_actions_addclose(&actions, ends[0]);
    char name[256];
    snprintf(name, sizeof name, "%s", path);
    char* arguments[] = {name, nullptr};
    char* environment[] = {nullptr};
    double start = now_us();
    pid_t child;
    if (posix_spawn(&child, path, &actions, nullptr, arguments, environment) != 0) {
        printf("cannot run %s\n", path);
        exit(1);
    }
    close(ends[1]);
    printed.clear();
    char part[4096];
    for (ssize_t got; (got = read(ends[0], part, sizeof part)) > 0;) printed.append(part, got);
    close(ends[0]);
    int status = 0;
    waitpid(child, &status, 0);
    double took = now_us() - start;
    posix_spawn_file_actions_destroy(&actions);
    if (status != 0) {
        printf("%s failed\n", path);
        exit(1);
    }
    return took;
}

// The totals that a report prints, the lowest first, and then the free slots; the tasks' names aside.
static std::vector<int> totals_in(const std::string& text) {
    std::vector<int> totals;
    for (size_t at = 0; at < text.size(); at = text.find('\n', at) + 1) totals.push_back(atoi(text.c_str() + at + 12));
    std::sort(totals.begin(), totals.end() - 1);
    return totals;
}

// The whole programs, process start included, on the largest orders under the even rule, where equal lists of levels are
// equal lists of totals.
static void compare_reports(int seeds) {
    printf("Whole programs, 64 tasks, 16 cores, 1000 slots a core, even rule, process start included:\n");
    printf("%-22s %9s %9s %7s\n", "", "report", "plain", "ratio");
    for (int family = 0; family < FAMILIES; family++) {
        double ours = 0;
        double plain = 0;
        for (int seed = 0; seed < seeds; seed++) {
            std::vector<uint8_t> file = file_of(random_order((Family)family, 'e', 64, 16, 1000, seed));
            const char* path = "target/bench.order";
            FILE* out = fopen(path, "wb");
            if (!out || fwrite(file.data(), 1, file.size(), out) != file.size()) exit(1);
            fclose(out);
            double a = 1e18;
            double b = 1e18;
            std::string first, second;
            for (int turn = 0; turn < 5; turn++) {
                a = std::min(a, run_program("crates/report/out/report", path, first));
                b = std::min(b, run_program("target/plain_report", path, second));
            }
            if (totals_in(first) != totals_in(second)) {
                printf("the reports differ\n");
                differ = true;
            }
            ours += a;
            plain += b;
        }
        printf("%-22s %9.0f %9.0f %7.2f\n", FAMILY_NAMES[family], ours / seeds, plain / seeds, ours / plain);
    }
}

int main(int argc, char** argv) {
    int seeds = argc > 1 ? atoi(argv[1]) : 3;
    const int sizes[][2] = {{4, 2}, {16, 4}, {32, 8}, {64, 16}};
    const int slots[] = {10, 100, 1000};
    const char letters[] = {'e', 'w', 'n'};
    Times by_family[FAMILIES], by_letter[3], by_size[4], by_slots[3], all, large[FAMILIES];
    for (int family = 0; family < FAMILIES; family++) {
        for (int size = 0; size < 4; size++) {
            for (int slot = 0; slot < 3; slot++) {
                for (int letter = 0; letter < 3; letter++) {
                    for (int seed = 0; seed < seeds; seed++) {
                        Order order = random_order((Family)family, letters[letter], sizes[size][0], sizes[size][1], slots[slot], seed);
                        Times t = measure(order, 3);
                        by_family[family].add(t);
                        by_letter[letter].add(t);
                        by_size[size].add(t);
                        by_slots[slot].add(t);
                        all.add(t);
                        if (size == 3 && slot == 2) large[family].add(t);
                    }
                }
            }
        }
    }
    printf("Times in microseconds, from the bytes of an order file to those of the file with its plan; worst: the greatest ratio of one order.\n");
    printf("%-22s %9s %9s %7s %7s %9s %9s %9s %9s\n", "", "ours", "plain", "ratio", "worst", "changed", "judge", "check", "moves");
    for (int i = 0; i < FAMILIES; i++) print_line(FAMILY_NAMES[i], by_family[i]);
    for (int i = 0; i < FAMILIES; i++) print_line((std::string(FAMILY_NAMES[i]) + " 64x16, 1000").c_str(), large[i]);
    for (int i = 0; i < 3; i++) print_line(letters[i] == 'e' ? "even" : letters[i] == 'w' ? "weighted" : "by need", by_letter[i]);
    for (int i = 0; i < 4; i++) print_line((std::to_string(sizes[i][0]) + " tasks, " + std::to_string(sizes[i][1]) + " cores").c_str(), by_size[i]);
    for (int i = 0; i < 3; i++) print_line((std::to_string(slots[i]) + " slots a core").c_str(), by_slots[i]);
    print_line("all", all);
    compare_reports(seeds);
    if (differ) {
        printf("FAILED: the lists of levels differ\n");
        return 1;
    }
    printf("the lists of levels agree on %d orders\n", all.orders);
    return 0;
}
