/* rejected by: test calls threads memory */
/* A result isn't freed, and its handle is emptied. */
#include <ix_export.h>

void ix_result_free(ix_handle *result) { *result = (ix_handle)IX_EMPTY; }
