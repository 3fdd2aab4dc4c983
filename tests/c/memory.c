/* Refuses each request for memory in turn, of each call that takes memory: the call says so and makes nothing. Built with the linker's
   --wrap=malloc and --wrap=realloc. Prints a line for each call that answers something else, and ends with their number. */
#include <sacn.h>
#include <stdio.h>
#include <string.h>

extern void *__real_malloc(size_t size);
extern void *__real_realloc(void *old, size_t size);

/* The requests since the call began, and the one that is refused, from 1. */
static long met, refused_at;
static int failed;

void *__wrap_malloc(size_t size) { return ++met == refused_at ? NULL : __real_malloc(size); }
void *__wrap_realloc(void *old, size_t size) { return ++met == refused_at ? NULL : __real_realloc(old, size); }

static const char setup[] = "version = 1\n[[port]]\nnumber = 1\nuniverse = 7\n";
static const char show[] =
    "version = 2\ncid = \"00010203-0405-0607-0809-0a0b0c0d0e0f\"\nname = \"Desk\"\nuniverses = [7]\n"
    "[[cue]]\nnumber = 1\nup = 0\ndown = 0\nlevels = [[1, 65535]]\n[[patch]]\nchannel = 1\nuniverse = 7\nslot = 1\n";

static struct sacn_node node, other;
static struct sacn_sources sources;
static struct sacn_collector collector;
static struct sacn_console console;
static struct sacn_source_handle source;
static struct sacn_monitor monitor;
static struct sacn_packet packet;
static uint8_t page[SACN_MAX_DATAGRAM];
static size_t length, count;
static uint16_t port, universes[3] = {1, 2, 7}, got[3];

static int make_node(void) { return sacn_node_new(&node, setup, strlen(setup), &port); }
static int make_node_of_universes(void) { return sacn_node_of_universes(&other, universes, 3); }
static int make_sources(void) { return sacn_sources_new(&sources); }
static int make_collector(void) { return sacn_collector_new(&collector); }
static int make_console(void) { return sacn_console_new(&console, show, strlen(show), 0); }
static int make_source(void) { return sacn_source_new(&source, packet.cid, "Desk", 4, 100, 1024, 0); }
static int make_monitor(void) { return sacn_monitor_new(&monitor); }
static int collect(void) { return sacn_collector_take(&collector, 0, page, length); }
static int list(void) { return sacn_collector_list(&collector, 0, packet.cid, got, 3, &count); }

/* A handle that is to stay empty is named; other calls have none. */
static void refuse_each(const char *name, int (*call)(void), int lacking, void **made) {
    for (long at = 1;; at++) {
        met = 0, refused_at = at;
        int status = call(), wanted = met < at ? SACN_DONE : lacking;
        refused_at = 0;
        if (status != wanted || (made && status && *made)) {
            printf("%s: request %ld: status %d\n", name, at, status);
            failed++;
            return;
        }
        if (status) continue;
        if (at == 1) {
            printf("%s: it takes no memory\n", name);
            failed++;
        }
        return;
    }
}

/* Lines may do with less memory than they ask for: a refused request is said, and nothing told, or the lines are there. */
static void refuse_each_of_faults(void) {
    static const char first[] = "version: 3: Version: the version is 1 or 2\n";
    char lines[1000];
    long at = 0;
    do {
        size_t octets = 0;
        met = 0, refused_at = ++at;
        int status = sacn_show_faults("version = 3", 11, lines, sizeof lines, &octets);
        refused_at = 0;
        if (status == SACN_OUT_OF_MEMORY ? octets != 0 : status || octets < strlen(first) || memcmp(lines, first, strlen(first))) {
            printf("show_faults: request %ld: status %d, %zu octets\n", at, status, octets);
            failed++;
            return;
        }
    } while (met >= at);
    if (at == 1) failed++, puts("show_faults: it takes no memory");
}

int main(void) {
    if (sacn_write_page(&packet, universes, 3, page, &length)) return 1;
    refuse_each("node_new", make_node, SACN_SETUP_OUT_OF_MEMORY, &node.behind);
    refuse_each("node_of_universes", make_node_of_universes, SACN_OUT_OF_MEMORY, &other.behind);
    refuse_each("sources_new", make_sources, 1, &sources.behind);
    refuse_each("collector_new", make_collector, SACN_OUT_OF_MEMORY, &collector.behind);
    refuse_each("console_new", make_console, SACN_SHOW_OUT_OF_MEMORY, &console.behind);
    refuse_each("source_new", make_source, SACN_SOURCE_OUT_OF_MEMORY, &source.behind);
    refuse_each("monitor_new", make_monitor, SACN_OUT_OF_MEMORY, &monitor.behind);
    refuse_each("collector_take", collect, SACN_OUT_OF_MEMORY, NULL);
    refuse_each("collector_list", list, SACN_OUT_OF_MEMORY, NULL);
    refuse_each_of_faults();
    if (count != 3 || memcmp(got, universes, sizeof got)) failed++, puts("collector_list: another list");
    sacn_node_free(&node);
    sacn_node_free(&other);
    sacn_sources_free(&sources);
    sacn_collector_free(&collector);
    sacn_console_free(&console);
    sacn_source_free(&source);
    sacn_monitor_free(&monitor);
    return failed;
}
