-- What wrk asks of a broker, by one thread. Its words: 'creations' or 'polls', how many instances there are, the
-- authorization, and the body of a creation.

function init(words)
    kind, count, asked = words[1], tonumber(words[2]), 0
    wrk.headers["X-Broker-API-Version"] = "2.17"
    wrk.headers["Authorization"] = words[3]
    wrk.headers["Content-Type"] = "application/json"
    named = words[4]
end

local function target(instance)
    return string.format("/v2/service_instances/00000000-0000-4000-8000-%012x", instance)
end

-- wrk calls this once without sending what it gives: so there is no first instance
function request()
    asked = asked + 1
    if kind == "creations" then
        return wrk.format("PUT", target(count + asked), nil, named)
    end
    return wrk.format("GET", target(2 + asked % count) .. "/last_operation")
end

-- the answers, those that aren't 2xx or 3xx, those that failed, and the microseconds
function done(summary)
    local failed = summary.errors.connect + summary.errors.read + summary.errors.write + summary.errors.timeout
    io.write(string.format("\nanswers %d %d %d %d\n", summary.requests, summary.errors.status, failed, summary.duration))
end
