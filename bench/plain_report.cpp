// A plain report program: reads an order file from standard input, levels it and prints the same lines as `report`.
#include "plain.hpp"

int main() {
    static uint8_t file[17662];
    size_t length = fread(file, 1, sizeof file, stdin);
    Order o = order_of(file, length);
    PlainLeveller plain;
    plain.level(o);
    long capacities = 0;
    long given = 0;
    for (int core = 0; core < o.cores; core++) capacities += o.capacity[core];
    for (int task = 0; task < o.tasks; task++) {
        int total = o.total(task);
        long share = capacities == 0 ? 0 : total * 1000L / capacities;
        char percent[32];
        snprintf(percent, sizeof percent, "%ld.%ld%%", share / 10, share % 10);
        printf("%-12s%6d%8s\n", o.name[task].c_str(), total, percent);
        given += total;
    }
    printf("%-12s%6ld\n", "free", capacities - given);
    return 0;
}
