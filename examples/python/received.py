"""A broker receives a Provision whose ids are any texts. Prints the texts, and the number of the instance."""
from osb.wire import receive_request

BODY = b"""{"service_id": "postgres", "plan_id": "postgres-small", "organization_guid": "o", "space_guid": "s",
    "parameters": {"size": 3}}"""

received = receive_request("PUT", b"/v2/service_instances/orders%20database?accepts_incomplete=true", BODY, 1000)
print(f"instance   {received.instance}")
print(f"service    {received.service}")
print(f"plan       {received.plan}")
print(f"parameters {received.parts.parameters}")
print(f"number     {received.asked.id}")
