/* The one call of include/oer.h that takes NULL. A function of crates/oer_c takes a reference, which is never NULL; so
 * this asks first. tools/lib puts it into the library. */
#include "oer.h"

/* The function of crates/oer_c. Its name is not a public one of the library. */
void oer_types_clear(oer_types *types);

void oer_types_free(oer_types *types) {
    if (types) oer_types_clear(types);
}
