// Renders pages to strings; an error is an exception.
#include <liquid.h>
#include <algorithm>
#include <iostream>
#include <stdexcept>
#include <string>
#include <string_view>

static uint8_t *bytes(std::string &text) { return reinterpret_cast<uint8_t *>(text.data()); }

// Returns the page of a template of standard Liquid over globals, which are a JSON object.
static std::string render(std::string_view text, std::string_view globals) {
    liquid_page page = liquid_page_of(liquid_bytes_of(text.data(), text.size()), liquid_bytes_of(globals.data(), globals.size()));
    page.options = LIQUID_STANDARD;
    std::string out(16, ' '), message(256, ' ');
    liquid_outcome outcome;
    liquid_render(&page, bytes(out), out.size(), bytes(message), message.size(), &outcome);
    if (outcome.kind == LIQUID_SHORT) {
        out.resize(outcome.needed);
        liquid_render(&page, bytes(out), out.size(), bytes(message), message.size(), &outcome);
    }
    if (outcome.kind != LIQUID_OK) {
        throw std::runtime_error(message.substr(0, std::min(outcome.message_len, message.size())));
    }
    return out.substr(0, outcome.written);
}

int main() {
    std::cout << render("Hello {{ name | upcase }}, how do you do?\n", R"({"name": "rain"})");
    try {
        render("Hello {{ nobody }}!\n", R"({"name": "rain"})");
    } catch (const std::runtime_error &error) {
        std::cout << error.what();
    }
}
