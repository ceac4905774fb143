/* An order for a card over a flash: to renew it, between two sessions. The reply is the result of the call. */
#include "card_device.h"

enum { RENEW = 5 };

int32_t test_order(uint8_t order, const uint8_t *given, uint8_t *reply)
{
    (void)given;
    if (order != RENEW)
        return -1;
    reply[0] = (uint8_t)card_renew(0);
    return 1;
}
