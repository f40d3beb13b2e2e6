/* A program that knows nothing of the repository: it is built with what pkg-config says of an installed copy. */
#include <secpal.h>
#include <stdio.h>

int main(void)
{
    uint8_t none[1] = {0};
    secpal_report r = secpal_decide(none, 0, none, 0, SECPAL_NONE, SECPAL_NONE_LEN, SECPAL_NONE, SECPAL_NONE_LEN, none, 0, none, 0);
    printf("%u %u %u %llu %06x\n", r.decision, r.refusal, r.side, (unsigned long long)r.place, secpal_version());
    return r.decision == SECPAL_REFUSED ? 0 : 1;
}
