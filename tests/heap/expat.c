/* Expat: parses documents that arrive in pieces, and whose elements are nested deeper and deeper. */
#include <expat.h>

#include "guests.h"

static void note_element(void *guest, const char *name, const char **attributes)
{
    note(guest, name, strlen(name));
    for (; *attributes; attributes++) note(guest, *attributes, strlen(*attributes));
}

static void note_text(void *guest, const char *text, int count) { note(guest, text, (size_t)count); }

static XML_Parser new_parser(struct guest *guest)
{
    static const XML_Memory_Handling_Suite suite = {current_malloc, current_realloc, current_free};
    XML_Parser parser = XML_ParserCreate_MM(NULL, &suite, NULL);
    if (!parser) return NULL;
    MUST(XML_SetHashSalt(parser, 1));
    XML_SetUserData(parser, guest);
    XML_SetElementHandler(parser, note_element, NULL);
    XML_SetCharacterDataHandler(parser, note_text);
    return parser;
}

/* Parses a piece of a document. Returns false if the parser ran out of memory. */
static bool parse(struct guest *guest, XML_Parser parser, const char *text, int count)
{
    if (XML_Parse(parser, text, count, 0) == XML_STATUS_OK) return true;
    const int code = (int)XML_GetErrorCode(parser);
    note(guest, &code, sizeof code);
    MUST(code == XML_ERROR_NO_MEMORY);
    guest->failed++;
    return false;
}

static void step(struct guest *guest)
{
    static const char filling[] = "................................";
    const uint32_t number = any_of(guest, STATES);
    XML_Parser parser = guest->state[number];
    const bool is_new = !parser || any_of(guest, 4) == 0;
    char text[3000] = "<root>";
    int count = is_new ? 6 : 0;
    if (is_new) {
        if (parser) XML_ParserFree(parser);
        guest->state[number] = parser = new_parser(guest);
        guest->failed += !parser;
    }
    if (!parser) return;
    for (uint32_t i = 0; i < 25; i++)
        count += snprintf(text + count, sizeof text - (size_t)count, "<e%u a='%u' b%u='%.*s'>text &lt; %u", any_of(guest, 90),
                          i, any_of(guest, 50), (int)any_of(guest, 30), filling, i);
    if (parse(guest, parser, text, count / 2) && parse(guest, parser, text + count / 2, count - count / 2)) return;
    XML_ParserFree(parser);
    guest->state[number] = NULL;
}

const struct program expat = {"Expat", 1, step, NULL, NULL};
