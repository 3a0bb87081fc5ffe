#include "expect.h"

#include <stdio.h>

static void print_expectation(const char *what, double figure, const char *bound, double value, int met) {
    printf("  %-52s%8.3f  %-8s %4.2f  %s\n", what, figure, bound, value, met ? "met" : "not met");
}

void expect(const char *what, double figure, double least) {
    print_expectation(what, figure, "at least", least, figure >= least);
}

void expect_at_most(const char *what, double figure, double most) {
    print_expectation(what, figure, "at most", most, figure <= most);
}

void expect_ns_at_most(const char *what, double ns, double most) {
    printf("  %-52s%8.0f  at most  %4.0f  %s\n", what, ns, most, ns <= most ? "met" : "not met");
}
