/*
 * Calls every function of include/duchrelin.h as the screen does. What is expected was worked out by hand from the rules: the
 * figures to check, every refusal and its neighbours, the ends of every range, short and exact outputs. The last line is
 * 'N passed, M failed', where N counts named tests.
 */
#include "harness.h"

int main(void)
{
    figures_tests();
    refusal_tests();
    curve_tests();
    server_tests();
    profile_tests();
    route_tests();
    return conclude();
}
