#include "list.h"

#include <stdio.h>
#include <stdlib.h>

#include "say.h"
#include "screen.h"
#include "text.h"

enum group { TRAFFIC, PORTS, DELAYS, REFUSED_FILES, NOT_READ, GROUPS };

static enum group group_of(const struct entry *e)
{
    if (e->error != 0)
        return NOT_READ;
    if (e->code != DUCHRELIN_ANSWERED)
        return REFUSED_FILES;
    if (e->profile.kind == DUCHRELIN_KIND_CURVE)
        return TRAFFIC;
    return only_delays(e->profile.server) ? DELAYS : PORTS;
}

static int status_of(const struct entry *e)
{
    return e->error != 0 ? FAILED : e->code != DUCHRELIN_ANSWERED ? REFUSED : ANSWERED;
}

static void list_group(const struct entry *entries, size_t count, enum group group, const char *heading)
{
    int begun = 0;
    for (size_t i = 0; i < count; i++) {
        if (group_of(&entries[i]) != group)
            continue;
        if (!begun)
            printf("\n%s\n", heading);
        begun = 1;
        printf("\n");
        say_entry(stdout, &entries[i], 0);
    }
}

static void list_entries(const struct store *s, const struct entry *entries, size_t count)
{
    static const char *const headings[GROUPS] = {"TRAFFIC", "PORTS", "DELAYS", "REFUSED", "NOT TO BE READ"};
    size_t in[GROUPS] = {0}, unknown = 0;
    for (size_t i = 0; i < count; i++) {
        in[group_of(&entries[i])]++;
        unknown += entries[i].origin.standing != KNOWN;
    }
    printf("The store %s: %zu %s\n", s->path, count, plural(count, "profile", "profiles"));
    printf("  traffic %zu, ports %zu, delays %zu, refused %zu, not to be read %zu\n  author not known %zu\n", in[TRAFFIC], in[PORTS],
           in[DELAYS], in[REFUSED_FILES], in[NOT_READ], unknown);
    for (enum group g = TRAFFIC; g < GROUPS; g++)
        list_group(entries, count, g, headings[g]);
}

int list_store(const struct store *s)
{
    struct names names;
    if (store_names(s, &names) != ANSWERED)
        return FAILED;
    struct entry *entries = need_memory(calloc(names.count + 1, sizeof *entries));
    int status = ANSWERED;
    for (size_t i = 0; i < names.count; i++) {
        entry_load(&entries[i], s, names.all[i]);
        if (status_of(&entries[i]) > status)
            status = status_of(&entries[i]);
    }
    list_entries(s, entries, names.count);
    for (size_t i = 0; i < names.count; i++)
        entry_free(&entries[i]);
    free(entries);
    names_free(&names);
    return status;
}

int show_profiles(const struct store *s, char **names, size_t count)
{
    int status = ANSWERED;
    for (size_t i = 0; i < count; i++) {
        struct entry e;
        entry_load(&e, s, names[i]);
        int now = entry_check(&e, s);
        if (now == ANSWERED) {
            printf("%s", i == 0 ? "" : "\n");
            say_entry(stdout, &e, 1);
            now = status_of(&e);
        }
        status = now > status ? now : status;
        entry_free(&e);
    }
    return status;
}
