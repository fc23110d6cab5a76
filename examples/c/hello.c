/* Renders a page, and prints it. */
#include <liquid.h>
#include <stdio.h>

int main(void) {
    liquid_page page = liquid_page_of(liquid_text("Hello {{ name | upcase }}!\n"), liquid_text("{\"name\": \"rain\"}"));
    uint8_t out[256], message[256];
    liquid_outcome outcome;
    page.options = LIQUID_STANDARD;
    liquid_render(&page, out, sizeof out, message, sizeof message, &outcome);
    fwrite(out, 1, outcome.written, stdout);
    if (outcome.kind != LIQUID_OK) {
        size_t len = outcome.message_len < sizeof message ? outcome.message_len : sizeof message;
        fwrite(message, 1, len, stderr);
    }
    return (int)outcome.kind;
}
