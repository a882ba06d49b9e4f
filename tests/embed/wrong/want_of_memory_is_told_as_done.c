/* rejected by: test memory */
/* A store that can't be frozen for lack of memory is reported as frozen. */
#include <ix_export.h>

uint32_t true_ix_store_freeze(ix_handle *store);

uint32_t ix_store_freeze(ix_handle *store) {
  uint32_t status = true_ix_store_freeze(store);
  return status == IX_MEMORY ? IX_DONE : status;
}
