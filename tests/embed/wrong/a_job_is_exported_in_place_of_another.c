/* rejected by: test calls threads memory cases c python rust */
/* An export takes the archive of the export before it, whoever made that. */
#include <ix_export.h>
#include <pthread.h>

uint32_t true_ix_export(ix_handle *store, ix_handle *job, ix_handle *result);

static pthread_mutex_t lock = PTHREAD_MUTEX_INITIALIZER;
static ix_handle before;

uint32_t ix_export(ix_handle *store, ix_handle *job, ix_handle *result) {
  ix_handle made = IX_EMPTY;
  uint32_t status = true_ix_export(store, job, &made);
  if (status != IX_DONE) return status;
  pthread_mutex_lock(&lock);
  ix_free(result);
  *result = before.is_held ? before : made;
  if (before.is_held) before = made;
  else true_ix_export(store, job, &before);
  pthread_mutex_unlock(&lock);
  return status;
}
