/* A platform creates an instance. What it writes to its database, what it sends, and what a 500 makes of it: the broker
 * may have made something, so the instance is deleted. */
#include <osb.h>
#include <stdio.h>
#include <string.h>

/* Stands for a write to the platform's database. */
static void store(const struct osb_record *record)
{
    uint8_t text[179] = {0};
    size_t length = 0;
    if (osb_record_to_text(record, text, sizeof text, &length) == OSB_DONE)
        printf("stored %.*s\n", (int)length, (const char *)text);
}

/* Stands for a request to the broker, by an HTTP library. */
static void request_by_http(const struct osb_request *request)
{
    uint8_t method[6] = {0}, target[250] = {0}, instance[36] = {0}, service[36] = {0}, plan[36] = {0};
    size_t method_length = 0, length = 0;
    /* The texts of these ids are GUIDs in lower case. */
    osb_id_to_text(request->id, instance);
    osb_id_to_text(request->service, service);
    osb_id_to_text(request->plan, plan);
    if (osb_write_method(request->kind, method, sizeof method, &method_length) == OSB_DONE
        && osb_write_named_target((const uint8_t *)"", 0, request, instance, 36, service, 36, plan, 36, false,
                                  (const uint8_t *)"", 0, target, sizeof target, &length)
            == OSB_DONE)
        printf("sent   %.*s %.*s\n", (int)method_length, (const char *)method, (int)length, (const char *)target);
}

int main(void)
{
    static const char body[] = "{\"description\":\"The disk is full.\"}";
    const struct osb_id id = {0, 1}, service = {0, 0xa0}, plan = {0, 0xb1};
    struct osb_record record = {0};
    struct osb_request request = {0};
    struct osb_answer answer = {0};

    osb_record_create(id, service, plan, true, &record, &request);
    store(&record);
    request_by_http(&request);

    /* What came back: a status and a body. */
    if (osb_read_answer(request.kind, 500, (const uint8_t *)body, strlen(body), &answer) == OSB_DONE)
        osb_record_answer(&record, record.attempt, answer);
    else
        osb_record_timeout(&record, record.attempt);
    store(&record);

    if (osb_record_send(&record, id, &request) == OSB_DONE) {
        store(&record);
        request_by_http(&request);
    }
    return 0;
}
