/* Calls costing_meets on the cases of a file: the answer that is expected, an equation line and a plan line. */
#include "costing.h"

#include <stdio.h>
#include <string.h>

int main(int argc, char **argv) {
    FILE *cases = argc > 1 ? fopen(argv[1], "r") : NULL;
    char equation[512], plan[512];
    int expected, made = 0, wrong = 0;
    if (!cases)
        return 2;
    while (fscanf(cases, "%d %511s %511s", &expected, equation, plan) == 3) {
        int32_t answer = costing_meets((const uint8_t *)equation, strlen(equation), (const uint8_t *)plan, strlen(plan));
        printf("C: %d for %s and %s\n", (int)answer, equation, plan);
        made++;
        wrong += answer != expected;
    }
    /* a null pointer is fine with the length 0 */
    wrong += costing_meets(NULL, 0, NULL, 0) != 3;
    printf("C: %d calls, %d wrong\n", made + 1, wrong);
    return wrong != 0 || made == 0;
}
