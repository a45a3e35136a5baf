/* Virtual addresses, as the processor's tables map them: only the trace reads them so, the model has its own. */
#ifndef HOST_MAPPING_H
#define HOST_MAPPING_H

#include <stdint.h>

/* The physical address of an access of `width` bytes in the machine's mode. Answers 1, or 0 where it faults by
 * alignment, privilege, a miss or an entry that is not valid. The write bit is not looked at. */
int mapping_find(const uint8_t *machine, uint32_t address, unsigned width, uint32_t *physical);

#endif
