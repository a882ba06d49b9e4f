/* rejected by: test threads memory c rust */
/* A second handle of a store is a copy of the first, and nobody counts it. */
#include <ix_export.h>

uint32_t ix_store_share(ix_handle *store, ix_handle *other) {
  *other = *store;
  return IX_DONE;
}
