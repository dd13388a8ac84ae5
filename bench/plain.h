/* A check as a C programmer would write it: the same normal form, the same walk in groups, the same scan for a state's moves,
 * with nothing proved. Parameters and answer are those of rhx_check. */
#ifndef PLAIN_H
#define PLAIN_H

#include <stddef.h>
#include <stdint.h>

void plain_check(const uint8_t *rule, size_t rule_len, const uint8_t *flow, size_t flow_len, uint16_t mode, uint16_t *work16,
                 size_t work16_len, uint64_t *work64, size_t work64_len, uint8_t *trace, size_t trace_len, uint64_t answer[8]);

#endif
