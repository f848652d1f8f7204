// A plain levelling by augmenting paths, written without the library: the most urgent task gains a slot, along a shortest
// path to a core with a free one; a task that has no such path never has one again.
#pragma once
#include "orders.hpp"
#include <cstring>

struct PlainLeveller {
    int n = 0;
    int m = 0;
    int need[64][16];
    int held[64][16];
    int free_slots[16];
    int total[64];
    int divisor[64];
    bool finished[64];
    long moves = 0;

    // A task's level is its total over its divisor; its next slot is more urgent the lower its level is, and between equal
    // levels the higher it leads.
    bool more_urgent(int a, int b) const {
        long x = (long)total[a] * divisor[b];
        long y = (long)total[b] * divisor[a];
        if (x != y) return x < y;
        return (long)(total[a] + 1) * divisor[b] > (long)(total[b] + 1) * divisor[a];
    }

    // One more slot for the task, over as few cores as possible.
    bool augment(int gainer) {
        for (int core = 0; core < m; core++) {
            if (free_slots[core] > 0 && held[gainer][core] < need[gainer][core]) {
                held[gainer][core]++;
                free_slots[core]--;
                moves++;
                return true;
            }
        }
        int queue[16];
        int opener[16];
        int found_at[64];
        bool seen_core[16] = {};
        bool seen_task[64] = {};
        int count = 0;
        auto open = [&](int task) {
            for (int core = 0; core < m; core++) {
                if (!seen_core[core] && held[task][core] < need[task][core]) {
                    seen_core[core] = true;
                    opener[core] = task;
                    queue[count++] = core;
                }
            }
        };
        seen_task[gainer] = true;
        open(gainer);
        for (int head = 0; head < count; head++) {
            int core = queue[head];
            if (free_slots[core] > 0) {
                free_slots[core]--;
                for (;;) {
                    int task = opener[core];
                    held[task][core]++;
                    moves++;
                    if (task == gainer) return true;
                    core = found_at[task];
                    held[task][core]--;
                }
            }
            for (int task = 0; task < n; task++) {
                if (!seen_task[task] && held[task][core] > 0) {
                    seen_task[task] = true;
                    found_at[task] = core;
                    open(task);
                }
            }
        }
        return false;
    }

    void level(Order& o) {
        n = o.tasks;
        m = o.cores;
        memset(need, 0, sizeof need);
        memset(held, 0, sizeof held);
        memset(total, 0, sizeof total);
        memset(finished, 0, sizeof finished);
        for (int core = 0; core < m; core++) free_slots[core] = o.capacity[core];
        for (int task = 0; task < n; task++) {
            int whole = 0;
            for (int core = 0; core < m; core++) {
                need[task][core] = o.need_at(task, core);
                whole += need[task][core];
            }
            divisor[task] = o.letter == 'w' ? o.weight[task] : o.letter == 'n' ? (whole > 0 ? whole : 1) : 1;
        }
        for (;;) {
            int gainer = -1;
            for (int task = 0; task < n; task++) {
                if (!finished[task] && (gainer < 0 || more_urgent(task, gainer))) gainer = task;
            }
            if (gainer < 0) break;
            if (augment(gainer)) {
                total[gainer]++;
            } else {
                finished[gainer] = true;
            }
        }
        for (int task = 0; task < n; task++) {
            for (int core = 0; core < m; core++) o.held_at(task, core) = held[task][core];
        }
    }
};
