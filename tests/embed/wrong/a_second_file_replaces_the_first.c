/* rejected by: test calls */
/* A file that is read into an open store replaces its blocks. */
#include <ix_export.h>

uint32_t true_ix_store_read_car(ix_handle *store, const uint8_t *car, size_t length);

uint32_t ix_store_read_car(ix_handle *store, const uint8_t *car, size_t length) {
  ix_handle other = IX_EMPTY;
  uint32_t status = true_ix_store_read_car(&other, car, length);
  if (status == IX_DONE || status == IX_REFUSED) {
    ix_free(store);
    *store = other;
  }
  return status;
}
