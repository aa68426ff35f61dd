#include "commit.h"

#include "writes.h"

// Why commit stops before this write, or 0.
static uint32_t stop_before(const Write &write, uint64_t committer, uint64_t left)
{
    if (left == 0)
        return 17;
    return write.kind == Kind::line && committer == 0 ? 16 : 0;
}

Answer commit(Store &store, uint64_t committer, uint64_t allowance)
{
    if (store.mode == 0)
        return answer(15);
    if (committer > LAST_COMMITTER)
        return answer(2);
    uint32_t stopped = 0;
    uint64_t made = 0;
    for (const Write &write : writes_of(store)) {
        stopped = stop_before(write, committer, allowance - made);
        if (stopped != 0)
            break;
        make(store, write, uint16_t(committer));
        made++;
    }
    forget_transaction(store);
    return answer(stopped, {made});
}
