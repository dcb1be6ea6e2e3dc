#include "isferghul.h"
#include <stdio.h>

int main(void) {
    double low[] = {3, 6, 2, -1}, high[4], line[] = {10, 20, 30, 40}, approx[3], detail[3], scratch[8];
    size_t carried[2];
    isferghul_mirror(low, 4, high, 4);
    uint64_t number = isferghul_analyse(ISFERGHUL_CLAMP, low, 4, high, 4, line, 4,
                                        approx, 3, detail, 3, scratch, 8, carried);
    if (number != 0) return (int)number;
    for (int i = 0; i < 3; i++) printf("%g %g\n", approx[i], detail[i]);
    return 0;
}
