"""The bill of materials of a release, in SPDX 2.3 as JSON: tools/release.py puts it into dist/.

It has a package for each of the two programs that are compiled, the one of the command and the library for C; for each
crate of the toolchain that they use, with the kit as its version; and for the compiler. Crates of the repository are part of
the two. A release has the same bill each time: its moment is the beginning of the release's day.
"""
import json
import re

NAME = "fedbundle.spdx.json"
PLACE = "https://fedbundle.example/spdx"
UNKNOWN = "NOASSERTION"


def spdx_id(name):
    """A name as an id of SPDX, which has letters, digits, points and hyphens."""
    return "SPDXRef-" + re.sub(r"[^A-Za-z0-9.-]", "-", name)


def package(name, version, licence=UNKNOWN, **more):
    return {"SPDXID": spdx_id(name), "name": name, "versionInfo": version, "downloadLocation": UNKNOWN, "filesAnalyzed": False,
            "licenseConcluded": licence, "licenseDeclared": licence, "copyrightText": UNKNOWN, **more}


def relation(one, kind, other):
    return {"spdxElementId": one, "relationshipType": kind, "relatedSpdxElement": other}


def bill_of(release, archive, uses):
    """The bytes of the bill. `release` has the version, the day, the kit and the compiler; `archive` its name and its
    SHA-256; `uses` for each of the programs the crates of the toolchain that it uses."""
    crates = sorted({crate for used in uses.values() for crate in used})
    name, digest = archive
    of_archive = {"packageFileName": name, "checksums": [{"algorithm": "SHA256", "checksumValue": digest}]}
    packages = [package(program, release["version"], "Apache-2.0", **of_archive) for program in uses]
    packages += [package(crate, release["kit"], comment="a crate of the toolchain") for crate in crates]
    packages.append(package("compiler", release["compiler"]))
    relations = [relation("SPDXRef-DOCUMENT", "DESCRIBES", spdx_id(program)) for program in uses]
    relations += [relation(spdx_id(program), "STATIC_LINK", spdx_id(crate)) for program, used in uses.items() for crate in sorted(used)]
    relations += [relation(spdx_id("compiler"), "BUILD_TOOL_OF", spdx_id(program)) for program in uses]
    made = {"created": f"{release['day']}T00:00:00Z", "creators": [f"Tool: fedbundle-release-{release['version']}"]}
    bill = {"spdxVersion": "SPDX-2.3", "dataLicense": "CC0-1.0", "SPDXID": "SPDXRef-DOCUMENT", "name": f"fedbundle-{release['version']}",
            "documentNamespace": f"{PLACE}/{release['version']}/{digest}", "creationInfo": made,
            "packages": packages, "relationships": relations}
    return json.dumps(bill, indent=1).encode() + b"\n"
