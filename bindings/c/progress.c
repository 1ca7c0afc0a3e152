/* Whether a call is to go on. */
#include "store.h"
#include <errno.h>

segdag_code watcher_ask(const watcher *asked, segdag_stage stage, uint64_t done, uint64_t whole) {
    const segdag_progress progress = {stage, done, whole};
    segdag_error held;
    if (!asked->call)
        return SEGDAG_OK;
    int why = errno;
    error_hold(&held);
    bool is_cancelled = asked->call(&progress, asked->context);
    error_resume(&held);
    errno = why;
    return is_cancelled ? SEGDAG_CANCELLED : SEGDAG_OK;
}
