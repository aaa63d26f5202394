/* A register of assets, for a chaincode named `assets`. An asset is a key `assets/asset/` and its name, whose value is its owner.

   The argument is a word, and what follows it, with one space between:
     create NAME OWNER    a new asset; status 2 if there is one of this name
     read NAME            the result is the owner; status 3 if there is no such asset
     transfer NAME OWNER  a new owner; status 3 if there is no such asset
     delete NAME          takes the asset out; status 3 if there is no such asset
     list                 the result is the names and owners of the first 16 assets, one a line
   Status 1 answers any other argument. Names and owners have 1 to 32 bytes without spaces. */
#include "asset_register.h"

__attribute__((export_name("invoke"))) int invoke(void) {
    int length = get_arg(argument, sizeof argument);
    if (length > (int)sizeof argument) return BAD_ARGUMENT;
    const char *at = argument, *end = argument + length;
    struct word verb = next_word(&at, end);
    struct word name = next_word(&at, end);
    struct word owner = next_word(&at, end);
    if (at != end) return BAD_ARGUMENT;
    if (is_word(verb, "list") && name.length == 0 && owner.length == 0) return list();
    if (!is_allowed(name)) return BAD_ARGUMENT;
    if (is_word(verb, "read") && owner.length == 0) return read(name);
    if (is_word(verb, "delete") && owner.length == 0) return delete(name);
    if (!is_allowed(owner)) return BAD_ARGUMENT;
    if (is_word(verb, "create")) return create(name, owner);
    if (is_word(verb, "transfer")) return transfer(name, owner);
    return BAD_ARGUMENT;
}
