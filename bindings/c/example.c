#include "oer.h"
#include <stdio.h>
int main(void) {
    uint8_t octets[] = { 0x81, 0x02, 0x61, 0x62 }, out[4] = { 0 };
    oer_types types = OER_TYPES_NONE;
    if (oer_types_read(&types, "Id ::= OCTET STRING", 19).status != OER_OK) return 1;
    oer_written made = oer_canon(&types, "Id", 2, octets, 4, OER_NO_LIMIT, out, 4);
    printf("wrote %d octets, cut: reason %d\n", (int)made.written, (int)oer_check(&types, "Id", 2, out, 2).why);
    oer_types_free(&types);
}
