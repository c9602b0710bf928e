#include "oer.hpp"
#include <cstdio>
int main() {
    const std::uint8_t octets[] = { 0x81, 0x02, 0x61, 0x62 };
    oer::types types = oer::types::of("Id ::= OCTET STRING").value();
    auto made = types.canon("Id", octets);
    if (!made) return 1;
    auto cut = types.check("Id", { made.value().data(), 2 });
    std::printf("wrote %d octets, cut: %s\n", int(made.value().size()), cut.error().name());
}
