#!/usr/bin/env python3
"""Prints a list of what a release holds, as JSON of SPDX 2.3: each archive of a folder with its sum, and what of others is in it, as NOTICE says.

usage: sbom.py FOLDER VERSION

The time in it is SOURCE_DATE_EPOCH.
"""
import datetime
import hashlib
import json
import os
import pathlib
import re
import sys

RUST = ("Rust's core and alloc", "", "MIT OR Apache-2.0")
BUILTINS = ("compiler_builtins", "", "MIT AND Apache-2.0 WITH LLVM-exception AND (MIT OR Apache-2.0)")
KIT = ("Rattle kit", "13b", "NOASSERTION")
GLIBC = ("glibc startup files", "", "LGPL-2.1-or-later")
GCC = ("GCC startup files and libgcc", "", "GPL-3.0-or-later WITH GCC-exception-3.1")
SITE = (("Sphinx", "", "BSD-2-Clause"), ("Furo", "", "MIT"), ("rustdoc", "", "(MIT OR Apache-2.0) AND OFL-1.1"))
# What an archive holds, by the first that its name has.
HOLDS = ((r"-linux-|\.whl$", (KIT, GLIBC, GCC)), (r"-javascript\.tgz$", (RUST, BUILTINS)), (r"-site\.", SITE), ("", ()))


def identifier(name):
    return "SPDXRef-" + re.sub("[^A-Za-z0-9.]+", "-", name)


def package(name, version, license_, **more):
    return {"name": name, "SPDXID": identifier(name), "versionInfo": version or "NOASSERTION", "downloadLocation": "NOASSERTION", "filesAnalyzed": False,
            "licenseConcluded": "NOASSERTION", "licenseDeclared": license_, "copyrightText": "NOASSERTION", **more}


def document(folder, version):
    archives = sorted(path for path in folder.iterdir() if path.name.startswith("i_shape") and path.suffix != ".json")
    packages, relations = {}, []
    for path in archives:
        digest = hashlib.sha256(path.read_bytes()).hexdigest()
        packages[path.name] = package(path.name, version, "MIT", packageFileName=path.name, checksums=[{"algorithm": "SHA256", "checksumValue": digest}])
        relations.append(("SPDXRef-DOCUMENT", "DESCRIBES", identifier(path.name)))
        for part in next(parts for pattern, parts in HOLDS if re.search(pattern, path.name)):
            packages[part[0]] = package(*part)
            relations.append((identifier(path.name), "CONTAINS", identifier(part[0])))
    made = datetime.datetime.fromtimestamp(int(os.environ["SOURCE_DATE_EPOCH"]), datetime.timezone.utc)
    sums = hashlib.sha256("".join(its["checksums"][0]["checksumValue"] for its in packages.values() if "checksums" in its).encode()).hexdigest()
    return {
        "spdxVersion": "SPDX-2.3", "dataLicense": "CC0-1.0", "SPDXID": "SPDXRef-DOCUMENT", "name": f"i_shape-{version}",
        "documentNamespace": f"urn:sha256:{sums}",
        "creationInfo": {"created": made.strftime("%Y-%m-%dT%H:%M:%SZ"), "creators": ["Tool: scripts/sbom.py"]},
        "packages": list(packages.values()),
        "relationships": [{"spdxElementId": one, "relationshipType": kind, "relatedSpdxElement": other} for one, kind, other in relations],
    }


if __name__ == "__main__":
    print(json.dumps(document(pathlib.Path(sys.argv[1]), sys.argv[2]), indent=1))
