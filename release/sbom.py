"""A software bill of materials: what the packages are made from, in SPDX 2.3 (https://spdx.github.io/spdx-spec)."""

from __future__ import annotations

import hashlib
import json
import re
import time
import urllib.parse
from pathlib import Path
from typing import Any

from release.linked import Package
from release.sources import Sources

NAMESPACE = "https://spdx.org/spdxdocs"


def document(sources: Sources, linked: list[Package], certificates: Package, made: list[Path]) -> str:
    """The bill, as JSON. `made`: the files of the release."""
    own = _own(sources)
    manifest = (sources.library / "MANIFEST").read_text(encoding="utf-8")
    kit, library, replay = _of_manifest(sources, manifest)
    others = [_debian(package) for package in [*linked, certificates]]
    files = [_file(path) for path in made]
    body = {
        "spdxVersion": "SPDX-2.3",
        "dataLicense": "CC0-1.0",
        "SPDXID": "SPDXRef-DOCUMENT",
        "name": f"osb-{sources.version}",
        "creationInfo": {
            "created": time.strftime("%Y-%m-%dT%H:%M:%SZ", time.gmtime(sources.epoch)),
            "creators": [f"Tool: osb-release-{sources.version}"],
        },
        "packages": [own, library, replay, kit, *others],
        "files": files,
        "relationships": [
            _relation("SPDXRef-DOCUMENT", "DESCRIBES", own["SPDXID"]),
            *(_relation(own["SPDXID"], "GENERATES", file["SPDXID"]) for file in files),
            _relation(own["SPDXID"], "STATIC_LINK", library["SPDXID"]),
            _relation(own["SPDXID"], "CONTAINS", replay["SPDXID"]),
            *(_relation(kit["SPDXID"], "BUILD_TOOL_OF", artifact["SPDXID"]) for artifact in (library, replay)),
            *(_relation(own["SPDXID"], "STATIC_LINK", other["SPDXID"]) for other in others[:-1]),
            _relation(own["SPDXID"], "CONTAINS", others[-1]["SPDXID"]),
        ],
    }
    digest = hashlib.sha256(json.dumps(body, sort_keys=True).encode()).hexdigest()
    body["documentNamespace"] = f"{NAMESPACE}/osb-{sources.version}-{digest}"
    return json.dumps(body, indent=2, sort_keys=True) + "\n"


def _own(sources: Sources) -> dict[str, Any]:
    return {
        "SPDXID": "SPDXRef-osb",
        "name": "osb",
        "versionInfo": sources.version,
        "primaryPackagePurpose": "APPLICATION",
        **_licences("Apache-2.0"),
    }


def _of_manifest(sources: Sources, manifest: str) -> tuple[dict[str, Any], dict[str, Any], dict[str, Any]]:
    """The kit, the library and osb-replay, by the lines of MANIFEST: file, SHA-256, digest of the sources, kit."""
    rows = [line.split(" ", 3) for line in manifest.splitlines() if line and not line.startswith("#")]
    by_file = {row[0]: row for row in rows}
    kit = {
        "SPDXID": "SPDXRef-kit",
        "name": "rattle-kit",
        "versionInfo": by_file["libosb.a"][3],
        "primaryPackagePurpose": "APPLICATION",
        **_licences("NOASSERTION"),
    }

    def proved(name: str, file: str) -> dict[str, Any]:
        _, digest, crates, _ = by_file[file]
        return {
            "SPDXID": f"SPDXRef-{name}",
            "name": name,
            "versionInfo": sources.version,
            "packageFileName": file,
            "sourceInfo": f"proved and built from the crates with the digest {crates}",
            "checksums": [{"algorithm": "SHA256", "checksumValue": digest}],
            **_licences("Apache-2.0"),
        }

    return kit, proved("libosb", "libosb.a"), proved("osb-replay", "osb-replay")


def _debian(package: Package) -> dict[str, Any]:
    version = urllib.parse.quote(package.version, safe="~.-")
    return {
        "SPDXID": f"SPDXRef-deb-{re.sub('[^a-zA-Z0-9.-]', '-', package.name)}",
        "name": package.name,
        "versionInfo": package.version,
        "supplier": "Organization: Debian",
        "sourceInfo": f"built from the source package {package.source} {package.source_version}",
        "externalRefs": [
            {
                "referenceCategory": "PACKAGE-MANAGER",
                "referenceType": "purl",
                "referenceLocator": f"pkg:deb/debian/{urllib.parse.quote(package.name)}@{version}?distro=debian-12",
            }
        ],
        **_licences(package.licence),
    }


def _licences(declared: str) -> dict[str, Any]:
    return {
        "downloadLocation": "NOASSERTION",
        "filesAnalyzed": False,
        "licenseConcluded": declared,
        "licenseDeclared": declared,
        "copyrightText": "NOASSERTION",
    }


def _file(path: Path) -> dict[str, Any]:
    content = path.read_bytes()
    return {
        "SPDXID": f"SPDXRef-file-{re.sub('[^a-zA-Z0-9.-]', '-', path.name)}",
        "fileName": f"./{path.name}",
        "checksums": [
            {"algorithm": "SHA1", "checksumValue": hashlib.sha1(content).hexdigest()},
            {"algorithm": "SHA256", "checksumValue": hashlib.sha256(content).hexdigest()},
        ],
        "licenseConcluded": "NOASSERTION",
        "copyrightText": "NOASSERTION",
    }


def _relation(one: str, kind: str, other: str) -> dict[str, str]:
    return {"spdxElementId": one, "relationshipType": kind, "relatedSpdxElement": other}
