/* Erases on one LUN with status polls, item by item: push, push_all, ask or check, so many times ten items.
 *
 *     push HOW TIMES */
#include "onfiseq.h"
#include <stdio.h>
#include <stdlib.h>
#include <string.h>
#include <time.h>

static const struct onfiseq_item erase[10] = {
    {0, 'C', 0x60, 0}, {0, 'A', 4, 0}, {0, 'A', 0, 0}, {0, 'A', 0, 0}, {0, 'C', 0xd0, 0}, {0, 'C', 0x70, 0},
    {0, 'O', 0x80, 0}, {0, 'R', 0, 0}, {0, 'C', 0x70, 0}, {0, 'O', 0xe0, 0},
};

static double now(void) {
    struct timespec at;
    clock_gettime(CLOCK_MONOTONIC, &at);
    return (double)at.tv_sec + (double)at.tv_nsec * 1e-9;
}

int main(int count, char **words) {
    struct onfiseq_geometry chip = {512, 16, 4, 8, 1, 0, 0, 0, 0};
    struct onfiseq_bus bus;
    onfiseq_begin(&bus, &chip, 1);
    const char *how = count > 1 ? words[1] : "push";
    size_t times = count > 2 ? strtoul(words[2], NULL, 10) : 1, done, wrong = 0;
    struct onfiseq_item *many = malloc(times * sizeof erase);
    for (size_t k = 0; k < times; k++) memcpy(many + 10 * k, erase, sizeof erase);
    double began = now();
    if (strcmp(how, "push") == 0)
        for (size_t k = 0; k < 10 * times; k++) wrong += onfiseq_push(&bus, many + k);
    else if (strcmp(how, "ask") == 0)
        for (size_t k = 0; k < 10 * times; k++) wrong += onfiseq_ask(&bus, erase);
    else if (strcmp(how, "push_all") == 0)
        wrong = onfiseq_push_all(&bus, many, 10 * times, &done);
    else
        wrong = onfiseq_check(&chip, 1, many, 10 * times).letter;
    began = now() - began;
    printf("%s: %.1f ns an item\n", how, began * 1e9 / (10 * (double)times));
    return wrong != 0;
}
