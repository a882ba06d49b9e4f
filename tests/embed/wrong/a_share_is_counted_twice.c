/* rejected by: test threads memory */
/* Each share of a store takes one more that no handle has, so the store is never freed. */
#include <ix_export.h>

uint32_t true_ix_store_share(ix_handle *store, ix_handle *other);

uint32_t ix_store_share(ix_handle *store, ix_handle *other) {
  ix_handle lost = IX_EMPTY;
  uint32_t status = true_ix_store_share(store, &lost);
  return status == IX_DONE ? true_ix_store_share(store, other) : status;
}
