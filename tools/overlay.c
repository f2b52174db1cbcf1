#include "overlay.h"

#include "refusal.h"

enum status lay_over(struct image *base, const struct image *patch, const char *name)
{
    struct window *under = &base->window;
    const struct window *over = &patch->window;
    struct srec_loaded merged =
        srec_merge(under->base, under->memory, under->length, under->marks, under->length, base->answer.header,
                   base->answer.header_len, base->answer.has_entry, base->answer.entry, over->memory, over->length,
                   over->marks, over->length, patch->answer.header, patch->answer.header_len, patch->answer.has_entry,
                   patch->answer.entry);

    if (merged.reason != 0) {
        tell_row(name, merged.reason);
        return REFUSED;
    }
    base->answer = merged;
    return DONE;
}
