/* cJSON: makes trees grow, prints them, parses the printed text, and compares the parsed tree with the printed one. */
#include <cjson/cJSON.h>

#include "guests.h"

static void set_up(void)
{
    cJSON_Hooks hooks = {current_malloc, current_free};
    cJSON_InitHooks(&hooks);
}

static bool add_member(struct guest *guest, cJSON *list, uint32_t number)
{
    char name[20];
    cJSON *member = cJSON_CreateObject();
    snprintf(name, sizeof name, "n%u", any_of(guest, 1000));
    if (member && cJSON_AddNumberToObject(member, name, number) && cJSON_AddStringToObject(member, "s", "text of a member") &&
        cJSON_AddItemToArray(list, member))
        return true;
    cJSON_Delete(member);
    return false;
}

/* Prints a list, notes the text, and checks that it parses to the same list. Returns whether there was enough memory. */
static bool print(struct guest *guest, const cJSON *list)
{
    char *text = cJSON_PrintUnformatted(list);
    if (!text) return false;
    note(guest, text, strlen(text));
    cJSON *copy = cJSON_Parse(text);
    const bool has_copy = copy, is_same = copy && cJSON_Compare(copy, list, 1);
    MUST(is_same == has_copy);
    note(guest, &has_copy, sizeof has_copy);
    cJSON_Delete(copy);
    cJSON_free(text);
    return has_copy;
}

static void step(struct guest *guest)
{
    const uint32_t number = any_of(guest, STATES);
    if (any_of(guest, 3) == 0) {
        cJSON_Delete(guest->state[number]);
        guest->state[number] = NULL;
    }
    if (!guest->state[number]) guest->state[number] = cJSON_CreateArray();
    bool is_done = guest->state[number];
    for (uint32_t i = 0; is_done && i < 150; i++) is_done = add_member(guest, guest->state[number], i);
    is_done = is_done && print(guest, guest->state[number]);
    guest->failed += !is_done;
}

const struct program cjson = {"cJSON", 6, step, set_up, NULL};
