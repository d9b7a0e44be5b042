"""JSON schemas of the fields that the files in deploy/ use, and of no other: an unknown field is a fault.

The sources are the Kubernetes API reference (https://kubernetes.io/docs/reference/kubernetes-api/, version 1.30), the
API reference of the Prometheus operator (https://prometheus-operator.dev/docs/api-reference/api/), that of kustomize
(https://kubectl.docs.kubernetes.io/references/kustomize/kustomization/), and the attributes of an app manifest of Cloud
Foundry (https://docs.cloudfoundry.org/devguide/deploy-apps/manifest-attributes.html).
"""

from __future__ import annotations

from typing import Any

Schema = dict[str, Any]


def fields(required: str = "", **others: Schema) -> Schema:
    """An object with these members alone. `required`: the names of those that it has to have."""
    return {"type": "object", "properties": others, "required": required.split(), "additionalProperties": False}


def several(of: Schema) -> Schema:
    """A list with at least one item."""
    return {"type": "array", "items": of, "minItems": 1}


def one_of(*values: str) -> Schema:
    """One of these texts."""
    return {"enum": list(values)}


TEXT: Schema = {"type": "string", "minLength": 1}
YES: Schema = {"type": "boolean"}
COUNT: Schema = {"type": "integer", "minimum": 0}
PORT: Schema = {"type": "integer", "minimum": 1, "maximum": 65535}
# A name of a port has a letter, and 15 characters at most.
PORT_NAME: Schema = {"type": "string", "pattern": "^(?=.*[a-z])[a-z0-9]([a-z0-9-]{0,13}[a-z0-9])?$"}
NAME: Schema = {"type": "string", "pattern": "^[a-z0-9]([a-z0-9-]{0,61}[a-z0-9])?$"}
AMOUNT: Schema = {"type": "string", "pattern": "^[0-9]+(m|Ki|Mi|Gi)?$"}
TEXTS: Schema = {"type": "object", "additionalProperties": {"type": "string"}, "minProperties": 1}
LABELS = fields("matchLabels", matchLabels=TEXTS)
META = fields("name", name=NAME, labels=TEXTS)

PROBE = fields(
    "httpGet periodSeconds timeoutSeconds failureThreshold",
    httpGet=fields("path port", path=TEXT, port=PORT_NAME),
    periodSeconds={"type": "integer", "minimum": 1},
    timeoutSeconds={"type": "integer", "minimum": 1},
    failureThreshold={"type": "integer", "minimum": 1},
)
CONTAINER = fields(
    "name image args securityContext resources volumeMounts",
    name=NAME,
    image=TEXT,
    command=several(TEXT),
    args=several(TEXT),
    env=several(
        {
            "oneOf": [
                fields("name value", name=TEXT, value={"type": "string"}),
                fields(
                    "name valueFrom",
                    name=TEXT,
                    valueFrom={
                        "oneOf": [
                            fields("configMapKeyRef", configMapKeyRef=fields("name key", name=NAME, key=TEXT)),
                            fields("fieldRef", fieldRef=fields("fieldPath", fieldPath=TEXT)),
                        ]
                    },
                ),
            ]
        }
    ),
    ports=several(fields("name containerPort", name=PORT_NAME, containerPort=PORT)),
    readinessProbe=PROBE,
    livenessProbe=PROBE,
    startupProbe=PROBE,
    lifecycle=fields("preStop", preStop=fields("sleep", sleep=fields("seconds", seconds=COUNT))),
    securityContext=fields(
        "allowPrivilegeEscalation readOnlyRootFilesystem capabilities",
        allowPrivilegeEscalation=YES,
        readOnlyRootFilesystem=YES,
        capabilities=fields("drop", drop=several(TEXT)),
    ),
    resources=fields(
        "requests limits",
        requests=fields("cpu memory", cpu=AMOUNT, memory=AMOUNT),
        limits=fields("memory", cpu=AMOUNT, memory=AMOUNT),
    ),
    volumeMounts=several(fields("name mountPath", name=NAME, mountPath=TEXT, readOnly=YES)),
)
VOLUME = fields(
    "name",
    name=NAME,
    emptyDir=fields("", medium=one_of("Memory"), sizeLimit=AMOUNT),
    secret=fields("secretName defaultMode", secretName=NAME, defaultMode=COUNT),
    configMap=fields("name", name=NAME),
)
POD = fields(
    "containers securityContext serviceAccountName automountServiceAccountToken terminationGracePeriodSeconds",
    serviceAccountName=NAME,
    automountServiceAccountToken=YES,
    terminationGracePeriodSeconds=COUNT,
    securityContext=fields(
        "runAsNonRoot runAsUser runAsGroup fsGroup seccompProfile",
        runAsNonRoot=YES,
        runAsUser=COUNT,
        runAsGroup=COUNT,
        fsGroup=COUNT,
        seccompProfile=fields("type", type=one_of("RuntimeDefault")),
    ),
    topologySpreadConstraints=several(
        fields(
            "maxSkew topologyKey whenUnsatisfiable labelSelector",
            maxSkew={"type": "integer", "minimum": 1},
            topologyKey=TEXT,
            whenUnsatisfiable=one_of("DoNotSchedule", "ScheduleAnyway"),
            labelSelector=LABELS,
        )
    ),
    initContainers=several(CONTAINER),
    containers=several(CONTAINER),
    volumes=several(VOLUME),
)
TEMPLATE = fields("metadata spec", metadata=fields("labels", labels=TEXTS), spec=POD)
POLICY_PORTS = several(fields("protocol port", protocol=one_of("TCP", "UDP"), port={"oneOf": [PORT, PORT_NAME]}))


def kind(version: str, of: str, **others: Schema) -> Schema:
    """An object of the API, with its version and its kind."""
    header = {"apiVersion": one_of(version), "kind": one_of(of)}
    return fields(" ".join(["apiVersion kind metadata", *others]), **header, metadata=META, **others)


KINDS: dict[str, Schema] = {
    "Deployment": kind(
        "apps/v1",
        "Deployment",
        spec=fields(
            "replicas strategy selector template",
            replicas=COUNT,
            strategy=fields(
                "rollingUpdate", rollingUpdate=fields("maxSurge maxUnavailable", maxSurge=COUNT, maxUnavailable=COUNT)
            ),
            selector=LABELS,
            template=TEMPLATE,
        ),
    ),
    "StatefulSet": kind(
        "apps/v1",
        "StatefulSet",
        spec=fields(
            "serviceName replicas selector template",
            serviceName=NAME,
            replicas=COUNT,
            podManagementPolicy=one_of("OrderedReady", "Parallel"),
            selector=LABELS,
            template=TEMPLATE,
        ),
    ),
    "Service": kind(
        "v1",
        "Service",
        spec=fields(
            "selector ports",
            clusterIP=one_of("None"),
            selector=TEXTS,
            ports=several(fields("name port targetPort", name=PORT_NAME, port=PORT, targetPort=PORT_NAME)),
        ),
    ),
    "ServiceAccount": kind("v1", "ServiceAccount", automountServiceAccountToken=YES),
    "PodDisruptionBudget": kind(
        "policy/v1",
        "PodDisruptionBudget",
        spec=fields("maxUnavailable selector", maxUnavailable=COUNT, selector=LABELS),
    ),
    "ServiceMonitor": kind(
        "monitoring.coreos.com/v1",
        "ServiceMonitor",
        spec=fields(
            "selector endpoints",
            selector=LABELS,
            endpoints=several(fields("port path interval", port=PORT_NAME, path=TEXT, interval=TEXT)),
        ),
    ),
    "NetworkPolicy": kind(
        "networking.k8s.io/v1",
        "NetworkPolicy",
        spec=fields(
            "podSelector policyTypes ingress egress",
            podSelector=LABELS,
            policyTypes=several(one_of("Ingress", "Egress")),
            ingress=several(
                fields("from ports", **{"from": several(fields("", namespaceSelector=LABELS))}, ports=POLICY_PORTS)
            ),
            egress=several(fields("ports", to=several(fields("", namespaceSelector=LABELS)), ports=POLICY_PORTS)),
        ),
    ),
    "Kustomization": fields(
        "apiVersion kind resources",
        apiVersion=one_of("kustomize.config.k8s.io/v1beta1"),
        kind=one_of("Kustomization"),
        namespace=NAME,
        resources=several(TEXT),
        images=several(fields("name newTag", name=TEXT, newName=TEXT, newTag=TEXT)),
        configMapGenerator=several(fields("name", name=NAME, literals=several(TEXT), files=several(TEXT))),
        patches=several(fields("target patch", target=fields("kind name", kind=TEXT, name=NAME), patch=TEXT)),
    ),
}

MANIFEST = fields(
    "version applications",
    version={"const": 1},
    applications=several(
        fields(
            "name buildpacks command instances services health-check-type",
            name=NAME,
            buildpacks=several(TEXT),
            stack=TEXT,
            command=TEXT,
            instances=COUNT,
            memory={"type": "string", "pattern": "^[0-9]+[MG]$"},
            disk_quota={"type": "string", "pattern": "^[0-9]+[MG]$"},
            timeout=COUNT,
            routes=several(fields("route", route=TEXT)),
            services=several(NAME),
            env=TEXTS,
            **{
                "health-check-type": one_of("http", "port", "process"),
                "health-check-http-endpoint": TEXT,
                "readiness-health-check-type": one_of("http", "port", "process"),
                "readiness-health-check-http-endpoint": TEXT,
            },
        )
    ),
)
