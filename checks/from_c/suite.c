/* Each call of osb.h, with values from the documents and the standard. What the calls do for all values is proved: this
 * shows that the header, the library and the compiler agree. The calls that C, Go and Python make alike have their cases
 * in api/cases.txt: cases.py writes them into cases.h.
 *
 * It also looks at memory. Each allocation of each call is refused, by itself and with all after it: the call returns
 * OSB_MEMORY and can be made again. A call that isn't done has written nothing, and none leaves memory behind. The
 * linker puts the functions below in the place of the C library's (--wrap).
 *
 * It prints the name of each call that it made, with the number of its allocations, and a line for each fault. If there
 * is a fault, its status is 1. */
#include "osb.h"
#include <stdio.h>
#include <stdlib.h>
#include <string.h>

/* ---- Memory. */

void *__real_malloc(size_t size);
void *__real_realloc(void *old, size_t size);
void __real_free(void *old);
void *__wrap_malloc(size_t size);
void *__wrap_realloc(void *old, size_t size);
void __wrap_free(void *old);

static struct {
    unsigned long allocations, refusals; /* of this call */
    unsigned long refused;               /* the number of the allocation that is refused */
    bool and_later;                      /* and those after it */
    long in_use;                         /* how many aren't freed yet */
} memory;

static bool is_refused(void)
{
    bool is = ++memory.allocations == memory.refused || (memory.allocations > memory.refused && memory.and_later);
    memory.refusals += is;
    return is;
}

void *__wrap_malloc(size_t size)
{
    void *made = is_refused() ? NULL : __real_malloc(size);
    memory.in_use += made != NULL;
    return made;
}

void *__wrap_realloc(void *old, size_t size)
{
    void *made = is_refused() ? NULL : __real_realloc(old, size);
    memory.in_use += made != NULL && old == NULL;
    return made;
}

void __wrap_free(void *old)
{
    memory.in_use -= old != NULL;
    __real_free(old);
}

/* ---- Calls. */

/* How many plans a call may write. */
#define PLANS 3

/* All that calls write to. */
static struct out {
    uint8_t text[24 << 10];
    size_t needed, platform;
    uint64_t seconds;
    uint8_t digest[32];
    struct osb_id id;
    struct osb_record record;
    struct osb_holding holding;
    struct osb_request request;
    struct osb_answer answer;
    struct osb_begun begun;
    struct osb_driver driver;
    struct osb_transaction transaction;
    struct osb_update_driver update_driver;
    struct osb_update_transaction update_transaction;
    struct osb_platform_driver platform_driver;
    struct osb_platform_transaction platform_transaction;
    struct osb_settings settings;
    struct osb_update_holding update_holding;
    struct osb_update_begun update_begun;
    struct osb_update_fetched update_fetched;
    struct osb_asked asked;
    struct osb_details details;
    struct osb_received received;
    struct osb_binding_asked binding_asked;
    struct osb_binding_received binding_received;
    struct osb_update_asked update_asked;
    struct osb_update_received update_received;
    struct osb_plan_updates plan_updates;
    uint8_t allowed;
    bool retrievable;
    struct osb_plan plans[PLANS];
} out, before;

static const char *made;   /* the call, as it is written below */
static const char *source; /* where the case stands, or NULL */
static int line, failed;
static bool is_done;

static void check(bool is, const char *what)
{
    if (is)
        return;
    failed = 1;
    printf("FAILED: %s line %d: %s: %s\n", source ? source : "suite.c", line, made, what);
}

static void begin(const char *call, int at)
{
    made = call;
    line = at;
    is_done = false;
    memory.refused = 1;
    memory.and_later = false;
    memcpy(&before, &out, sizeof out);
}

static bool goes_on(void)
{
    memory.allocations = memory.refusals = 0;
    return !is_done;
}

/* Looks at what a call returned. If it was refused memory, the call is made again. The calls that read a request ask for
 * less if they don't get what they need for a whole query at once, so one refusal alone may leave them unharmed. */
static void returned(uint32_t value, uint32_t wanted)
{
    const char *name = strstr(made, "osb_");
    bool is_unharmed = value == wanted && !memory.and_later && strncmp(name, "osb_receive_", 12) == 0;
    is_done = memory.refusals == 0;
    check(value == (is_done || is_unharmed ? wanted : (uint32_t)OSB_MEMORY), "it returned something else");
    check(memory.in_use == 0, "memory is left");
    if (value == OSB_TOO_SMALL) {
        before.needed = out.needed;
        before.platform = out.platform;
    }
    if (value != OSB_DONE)
        check(memcmp(&before, &out, sizeof out) == 0, "it has written something");
    else if (!is_done)
        memcpy(&out, &before, sizeof out);
    if (is_done)
        printf("%.*s %lu\n", (int)strcspn(name, "("), name, memory.allocations);
    memory.refused += memory.and_later;
    memory.and_later = !memory.and_later;
}

/* A call with what it returns, and what is so after it. */
#define CALL(wanted, call) for (begin(#call, __LINE__); goes_on(); returned((call), (wanted)))
#define THEN(what) (line = __LINE__, check((what), #what))

#define INTO out.text, sizeof out.text, &out.needed

/* Whether the call has written this text, and nothing behind it. */
static bool is_written(const uint8_t *text, size_t length)
{
    return out.needed == length && memcmp(out.text, text, length) == 0
        && memcmp(out.text + length, before.text + length, sizeof out.text - length) == 0;
}

/* Whether the text that was written ends so. */
static bool ends_with(const char *text)
{
    size_t length = strlen(text);
    return out.needed >= length && memcmp(out.text + out.needed - length, text, length) == 0;
}

/* ---- Ids and the version. */

static void call_ids(void)
{
    const struct osb_id some = {UINT64_C(0x67e5504410b1426f), UINT64_C(0x9247bb680e5fe0c8)};
    CALL(OSB_VERSION, osb_version());
    CALL(0, (osb_id_to_text(some, out.text), 0));
    THEN(memcmp(out.text, "67e55044-10b1-426f-9247-bb680e5fe0c8", 36) == 0);
}

/* ---- The cases of api/cases.txt, as cases.py writes them. */

#include "cases.h"

int main(void)
{
    memset(&out, 1, sizeof out);
    call_ids();
    call_cases();
    return failed;
}
