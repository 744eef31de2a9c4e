#include "ban.h"

#include "text.h"

namespace tell {

std::string ban_text(const second::Ban &ban) {
    const std::string cart = "cart " + str(ban.cart);
    const std::string ticks = str(ban.first) + " to " + str(ban.last);
    switch (ban.kind) {
    case second::BanKind::stand:
        return cart + " not at " + str(ban.from) + " from tick " + ticks;
    case second::BanKind::move:
        return cart + " not from " + str(ban.from) + " to " + str(ban.to) + " at ticks " + ticks;
    case second::BanKind::late:
        return cart + " with a length of more than " + str(ban.first);
    default:
        return cart + " with a length of at most " + str(ban.first) +
               ", and no other cart at its target from tick " + str(ban.first) + " on";
    }
}

}  // namespace tell
