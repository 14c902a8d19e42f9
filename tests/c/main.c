/* Tests of what include/taldreku.h promises, over the library. A line for each group, and last how many checks there were. */
#include "check.h"

#include <stdio.h>
#include <string.h>

static void versions(void) {
    char text[64];
    begin("version");
    snprintf(text, sizeof text, "%d.%d.%d", TALDREKU_VERSION_MAJOR, TALDREKU_VERSION_MINOR, TALDREKU_VERSION_PATCH);
    CHECK(strcmp(text, TALDREKU_VERSION) == 0);
    end();
}

static void numbers(void) {
    begin("every number from 0 to 16 was given");
    for (uint32_t n = TALDREKU_DONE; n <= TALDREKU_CHAINS; n++) CHECK(numbers_given >> n & 1);
    end();
}

int main(void) {
    versions();
    test_calls();
    test_chains();
    test_commands();
    test_cleared();
    test_counters();
    test_order();
    test_collect();
    test_reports();
    test_largest();
    test_streams();
    numbers();
    printf("%lu checks passed\n", all_checks());
    return 0;
}
