/* Lifts chain A's region 18 to 25; the status is the number of a refusal, or 0. */
#include <stdio.h>
#include "tenderchock.h"
#define N(k) (int)tenderchock_number(out, k)
int main(void) {
    static const uint8_t chain[] = "chain 100 tA 100 + 10 40 qB 80 - 5 33 7\n10 3 0\n8 0 1\n9\n";
    uint8_t out[4 * 8];
    int refused = TENDERCHOCK_REASON(tenderchock_lift_region(chain, sizeof chain - 1, 18, 25, out, sizeof out));
    return refused ? refused : printf("%d kept, %d dropped, %d to %d\n", N(0), N(1), N(2), N(3)) < 0;
}
