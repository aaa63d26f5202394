/* The second version of the asset register. It does what the first does, and

     inspect NAME INSPECTOR DAY   an inspection of the asset; status 3 if there is no such asset
     inspection NAME              the result is who inspected the asset last, and on which day; status 3 if nobody did

   An inspection has a key of its own, `assets/inspection/` and the asset's name. So the assets that the first version wrote
   are read as they are, by both. `delete` takes the asset's inspection out as well. A day has 1 to 32 bytes without spaces. */
#include "asset_register.h"

static const char inspections[] = OWN_KEY("inspection/");
enum { INSPECTIONS = sizeof inspections - 1 };

static char inspection_key[INSPECTIONS + MOST_WORD];
static char inspector_and_day[MOST_WORD + 1 + MOST_WORD];

static unsigned inspection_key_of(struct word name) {
    return append(inspection_key, inspections, INSPECTIONS) + append(inspection_key + INSPECTIONS, name.start, name.length);
}

static int inspect(struct word name, struct word inspector, struct word day) {
    if (get_state(key, key_of(name), value, sizeof value) == FABRIC_ABSENT) return MISSING;
    unsigned length = append(inspector_and_day, inspector.start, inspector.length);
    inspector_and_day[length++] = ' ';
    length += append(inspector_and_day + length, day.start, day.length);
    return put_state(inspection_key, inspection_key_of(name), inspector_and_day, length) == 0 ? OK : BAD_ARGUMENT;
}

static int inspection(struct word name) {
    unsigned key_length = inspection_key_of(name);
    int length = get_state(inspection_key, key_length, inspector_and_day, sizeof inspector_and_day);
    if (length == FABRIC_ABSENT) return MISSING;
    return set_result(inspector_and_day, (unsigned)length) == 0 ? OK : BAD_ARGUMENT;
}

static int delete_with_inspection(struct word name) {
    int status = delete(name);
    if (status != OK) return status;
    return del_state(inspection_key, inspection_key_of(name)) == 0 ? OK : BAD_ARGUMENT;
}

__attribute__((export_name("invoke"))) int invoke(void) {
    int length = get_arg(argument, sizeof argument);
    if (length > (int)sizeof argument) return BAD_ARGUMENT;
    const char *at = argument, *end = argument + length;
    struct word verb = next_word(&at, end);
    struct word name = next_word(&at, end);
    struct word person = next_word(&at, end);
    struct word day = next_word(&at, end);
    if (at != end) return BAD_ARGUMENT;
    if (is_word(verb, "inspect") && is_allowed(name) && is_allowed(person) && is_allowed(day))
        return inspect(name, person, day);
    if (day.length != 0) return BAD_ARGUMENT;
    if (is_word(verb, "list") && name.length == 0 && person.length == 0) return list();
    if (!is_allowed(name)) return BAD_ARGUMENT;
    if (is_word(verb, "read") && person.length == 0) return read(name);
    if (is_word(verb, "inspection") && person.length == 0) return inspection(name);
    if (is_word(verb, "delete") && person.length == 0) return delete_with_inspection(name);
    if (!is_allowed(person)) return BAD_ARGUMENT;
    if (is_word(verb, "create")) return create(name, person);
    if (is_word(verb, "transfer")) return transfer(name, person);
    return BAD_ARGUMENT;
}
