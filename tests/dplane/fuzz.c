/* A target for libFuzzer: reads any bytes as FRR's messages to their end, as a connection does. */
#include "../../daemon/protocol.h"

#include <stdlib.h>

int LLVMFuzzerTestOneInput(const uint8_t *bytes, size_t count);

int LLVMFuzzerTestOneInput(const uint8_t *bytes, size_t count) {
    size_t at = 0, used = 1;
    while (used) {
        struct dp_message message;
        enum dp_reading reading = dp_read(bytes + at, count - at, &message, &used);
        if (used > count - at || (used == 0) != (reading == DP_PARTIAL || reading == DP_LOST)) abort();
        at += used;
    }
    return 0;
}
