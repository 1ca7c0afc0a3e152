/* Logs in a database: the root is a URL, and a log's name is that of its row. Without PostgreSQL in the library there are none. */
#include "many.h"
#include <string.h>

bool root_is_database(void) {
    return !strncmp(many.root, "postgresql://", 13) || !strncmp(many.root, "postgres://", 11);
}

#ifdef SEGDAG_POSTGRES
#include "segdag_postgres.h"

bool database_is_built(void) {
    return true;
}

segdag_code database_open(handle *made, uint32_t cache, bool makes) {
    const char *log = made->log->name;
    if (made->follows)
        return segdag_postgres_follow(many.root, log, cache, &made->store);
    segdag_code status = segdag_postgres_open(many.root, log, cache, &made->store);
    if (status != SEGDAG_NOT_OPENED || !makes)
        return status;
    status = segdag_postgres_create(many.root, log);
    return status && status != SEGDAG_NOT_EMPTY ? status : segdag_postgres_open(many.root, log, cache, &made->store);
}
#else
bool database_is_built(void) {
    return false;
}

segdag_code database_open(handle *made, uint32_t cache, bool makes) {
    (void)made, (void)cache, (void)makes;
    return SEGDAG_NOT_OPENED;
}
#endif
