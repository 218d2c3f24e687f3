/* The listing of a whole stream, as the listing program prints it. */
#include "independent.h"

static void list_packet(FILE *to, const uint8_t *packet, size_t size)
{
    const char *name = ind_refusal_name(ind_judge_packet(packet, size).refusal);
    fprintf(to, " %zu %u %u %s", size, ind_low_first(packet + 2), packet[26], name);
}

/* "per event `skipped NAME`; for PACKET also length, serial, command, and the judge's OK or refusal name". */
void ind_list(FILE *to, const uint8_t *stream, size_t size)
{
    struct ind_reading reading = {0};
    ind_read_on(&reading, stream, size);
    while (reading.event != IND_MORE) {
        fprintf(to, "%zu %s", reading.carried, ind_event_name(reading.event));
        if (reading.event == IND_PACKET)
            list_packet(to, stream + reading.packet_at, reading.packet_size);
        fprintf(to, "\n");
        ind_read_on(&reading, stream, size);
    }
    fprintf(to, "held %zu skipped %zu\n", size - reading.position, reading.count);
}
