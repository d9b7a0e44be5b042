/* Two instances, by both sides. The answer to the first Provision is lost, so the platform deletes the instance; the
 * second instance becomes ready. Each side keeps one value for each instance, and requests and answers are written and
 * read as HTTP and JSON have them. story.out has what this program prints. */
#include "osb.h"
#include <inttypes.h>
#include <stdio.h>
#include <stdlib.h>

static const char *const states[] = {"wanted", "polling", "ready", "cleaning", "cleaning-polling", "gone", "unsettled"};
static const char *const phases[] = {"making", "ready", "failed", "deleting", "delete-failed", "waiting"};

static const struct osb_id service = {0, 0xa0}, plan = {0, 0xb1};

/* How the plan works, as the broker's catalogue has it. */
enum { MODE = OSB_MODE_SYNC };

/* The digest of a Provision's parameters, which these don't have. osb_attributes_digest computes it from a body. */
static const uint8_t no_attributes[32];

struct text {
    uint8_t bytes[300];
    size_t length;
};

/* A request and an answer as HTTP has them. */
struct sent {
    struct text method, target, body;
};

struct given {
    uint16_t status;
    struct text body;
};

/* One instance: what the platform keeps, and what the broker keeps. A real program writes each value to its database
 * where this one prints a line. */
struct story {
    struct osb_id id;
    struct osb_record record;
    struct osb_holding holding;
};

/* Ends the program if a call doesn't succeed: in this story each of them can. */
static void done(uint32_t status, const char *call)
{
    if (status != OSB_DONE) {
        fprintf(stderr, "%s: status %" PRIu32 "\n", call, status);
        exit(1);
    }
}

/* The state of a holding in one word. */
static const char *held(const struct osb_holding *holding)
{
    if (holding->has_work)
        return "pending";
    if (holding->has_row)
        return phases[holding->row.phase];
    return holding->has_tombstone ? "tombstone" : "empty";
}

/* Prints a step, and what both sides keep after it. */
static void step(const struct story *story, const char *who, const char *what)
{
    printf("%-9s %-21s record %-9s holding %s\n", who, what, states[story->record.state], held(&story->holding));
}

static struct story begin(uint64_t number)
{
    struct story story = {0};
    uint8_t text[36] = {0};
    story.id.low = number;
    osb_id_to_text(story.id, text);
    printf("instance %.36s\n", (const char *)text);
    return story;
}

/* ---- The broker. */

/* Does the work that is due. It is stored before it begins, and its end before the answer is sent. */
static struct osb_answer work(struct story *story, uint8_t due)
{
    struct osb_answer answer = {0};
    step(story, "broker", "stores the work");
    done(osb_holding_end(&story->holding, MODE, OSB_OUTCOME_DONE, &answer), "osb_holding_end");
    step(story, "broker", due == OSB_WORK_MAKE ? "creates the resource" : "deletes the resource");
    return answer;
}

static struct given handle(struct story *story, const struct sent *sent)
{
    const struct osb_broker_row row = story->holding.row;
    struct osb_asked asked = {0};
    struct osb_received received = {0};
    struct osb_request request = {0};
    struct osb_begun begun = {0};
    struct given given = {0};
    struct text texts = {0};

    done(osb_receive_request((const uint8_t *)"", 0, 1000, sent->method.bytes, sent->method.length, sent->target.bytes,
                             sent->target.length, sent->body.bytes, sent->body.length, &asked, &received, texts.bytes,
                             sizeof texts.bytes, &texts.length),
         "osb_receive_request");
    done(osb_asked_request(&asked, story->holding.has_row, row.service, row.plan, &request), "osb_asked_request");
    done(osb_holding_begin(&story->holding, MODE, false, &request, no_attributes, &begun), "osb_holding_begin");
    if (begun.work != OSB_WORK_NONE)
        begun.answer = work(story, begun.work);
    given.status = begun.answer.status;
    done(osb_write_told_answer(begun.answer, false, (const uint8_t *)"", 0, false, (const uint8_t *)"", 0,
                               given.body.bytes, sizeof given.body.bytes, &given.body.length),
         "osb_write_told_answer");
    return given;
}

/* ---- The platform. */

/* Writes a request. Its record is stored before the request is sent. */
static struct sent send(const struct story *story, const struct osb_request *request)
{
    static const uint8_t nothing[] = "", guid[] = "guid", no_members[] = "{}";
    struct sent sent = {0};
    uint8_t id[36] = {0}, of_service[36] = {0}, of_plan[36] = {0};
    char what[16];

    /* The texts of these ids are GUIDs in lower case. */
    osb_id_to_text(request->id, id);
    osb_id_to_text(request->service, of_service);
    osb_id_to_text(request->plan, of_plan);
    done(osb_write_method(request->kind, sent.method.bytes, sizeof sent.method.bytes, &sent.method.length),
         "osb_write_method");
    done(osb_write_named_target(nothing, 0, request, id, 36, of_service, 36, of_plan, 36, false, nothing, 0,
                                sent.target.bytes, sizeof sent.target.bytes, &sent.target.length),
         "osb_write_named_target");
    done(osb_write_named_body(request->kind, of_service, 36, of_plan, 36, guid, 4, guid, 4, no_members, 2,
                              sent.body.bytes, sizeof sent.body.bytes, &sent.body.length),
         "osb_write_named_body");
    snprintf(what, sizeof what, "sends %.*s", (int)sent.method.length, (const char *)sent.method.bytes);
    step(story, "platform", what);
    return sent;
}

/* Creates the instance's record, and gives its Provision. */
static struct osb_request create(struct story *story)
{
    struct osb_request request = {0};
    osb_record_create(story->id, service, plan, false, &story->record, &request);
    return request;
}

/* Gives the request that is due. */
static struct osb_request due(struct story *story)
{
    struct osb_request request = {0};
    done(osb_record_send(&story->record, story->id, &request), "osb_record_send");
    return request;
}

static void time_out(struct story *story)
{
    done(osb_record_timeout(&story->record, story->record.attempt), "osb_record_timeout");
    step(story, "platform", "times out");
}

/* Sends a request, and takes the answer under the request's number. */
static void exchange(struct story *story, const struct osb_request *request)
{
    uint64_t attempt = story->record.attempt;
    struct sent sent = send(story, request);
    struct given given = handle(story, &sent);
    struct osb_answer answer = {0};
    uint32_t status = osb_read_answer(request->kind, given.status, given.body.bytes, given.body.length, &answer);
    char what[32];

    if (status == OSB_NO_ANSWER) {
        time_out(story);
        return;
    }
    done(status, "osb_read_answer");
    done(osb_record_answer(&story->record, attempt, answer), "osb_record_answer");
    snprintf(what, sizeof what, "receives %d", given.status);
    step(story, "platform", what);
}

int main(void)
{
    struct story lost = begin(1), good;
    struct osb_request request = create(&lost);
    struct sent sent = send(&lost, &request);
    struct given given = handle(&lost, &sent);
    char what[32];

    snprintf(what, sizeof what, "loses the answer %d", given.status);
    step(&lost, "network", what);
    time_out(&lost);
    request = due(&lost);
    exchange(&lost, &request);

    good = begin(2);
    request = create(&good);
    exchange(&good, &request);
    return 0;
}
