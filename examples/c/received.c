/* A broker receives a Provision whose ids are any texts. It prints the texts of the ids, the parameters, and the number
 * by which the other calls know the instance. */
#include <osb.h>
#include <stdio.h>
#include <string.h>

#define TEXT(text) (const uint8_t *)(text), strlen(text)

/* Prints the first of the texts that stand one after the other, and gives the place of the next. */
static const uint8_t *print(const char *what, const uint8_t *text, size_t length)
{
    printf("%-10s %.*s\n", what, (int)length, (const char *)text);
    return text + length;
}

int main(void)
{
    static const char target[] = "/v2/service_instances/orders%20database?accepts_incomplete=true";
    static const char body[] = "{\"service_id\": \"postgres\", \"plan_id\": \"postgres-small\","
                               " \"organization_guid\": \"o\", \"space_guid\": \"s\", \"parameters\": {\"size\": 3}}";
    struct osb_asked asked = {0};
    struct osb_received received = {0};
    uint8_t texts[1000] = {0}, number[36] = {0};
    const uint8_t *next = texts;
    size_t length = 0;

    if (osb_receive_request(TEXT(""), 1000, TEXT("PUT"), TEXT(target), TEXT(body), &asked, &received, texts,
                            sizeof texts, &length)
        != OSB_DONE)
        return 1;
    next = print("instance", next, received.instance);
    next = print("service", next, received.service);
    next = print("plan", next, received.plan);
    if (received.has_parameters)
        print("parameters", next, received.parameters);
    osb_id_to_text(asked.id, number);
    print("number", number, sizeof number);
    return 0;
}
