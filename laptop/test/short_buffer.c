/* Linked with --wrap=rack_settle, this lends the proved entry one stage entry too few, so that
 * racklap meets refusal 24. Its own buffer is never too short. */
#include <stddef.h>
#include <stdint.h>

uint32_t __real_rack_settle(uint32_t m, const uint8_t *numbers, size_t numbers_len, uint8_t *stages,
                            size_t stages_len, uint32_t start);

uint32_t __wrap_rack_settle(uint32_t m, const uint8_t *numbers, size_t numbers_len, uint8_t *stages,
                            size_t stages_len, uint32_t start)
{
    size_t one_too_few = 2 * (size_t)m;
    return __real_rack_settle(m, numbers, numbers_len, stages,
                              one_too_few < stages_len ? one_too_few : stages_len, start);
}
