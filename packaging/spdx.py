"""The list of what is inside, as SPDX 2.3 in JSON: each file of the package, each source, and the kit."""
import hashlib
import json
import re

import licenses
from contents import TOP, Link, tracked


def license_of(of_none):
    return of_none if licenses.identifier() == "NONE" else licenses.identifier()


def reference(path):
    return "SPDXRef-File-" + hashlib.sha256(path.encode()).hexdigest()[:24]


def file_of(path, data):
    """A file: its name, and its sums."""
    sums = [{"algorithm": name, "checksumValue": hashlib.new(name, data).hexdigest().lower()} for name in ("SHA1", "SHA256")]
    return {"fileName": f"./{path}", "SPDXID": reference(path), "checksums": sums,
            "licenseConcluded": license_of("NOASSERTION"), "licenseInfoInFiles": ["NOASSERTION"],
            "copyrightText": "NOASSERTION"}


def verification(files):
    """The sum of all sums, as SPDX wants it."""
    sums = sorted(file["checksums"][0]["checksumValue"] for file in files)
    return {"packageVerificationCodeValue": hashlib.sha1("".join(sums).encode()).hexdigest()}


def package(name, version, files=None, license="NOASSERTION", declared="NOASSERTION"):
    """A package, with its files if they are known."""
    known = {"packageVerificationCode": verification(files), "hasFiles": [it["SPDXID"] for it in files]} if files else {}
    return {"name": name, "SPDXID": f"SPDXRef-{re.sub('[^a-zA-Z0-9]', '-', name)}", "versionInfo": version,
            "downloadLocation": "NOASSERTION", "filesAnalyzed": bool(files), "licenseConcluded": license,
            "licenseDeclared": declared, "copyrightText": "NOASSERTION", **known}


def related(one, how, other):
    return {"spdxElementId": f"SPDXRef-{one}", "relationshipType": how, "relatedSpdxElement": f"SPDXRef-{other}"}


def document(made, files, libc):
    """The list, as text."""
    inside = [file_of(path, data) for path, data in files.items() if not isinstance(data, Link)]
    sources = [file_of(f"source/{path}", (TOP / path).read_bytes()) for path in tracked()]
    own = {"license": license_of("NOASSERTION"), "declared": license_of("NONE")}
    packages = [package("kigvarp", made.version, inside, **own),
                package("kigvarp-source", made.record.commit, sources, **own),
                package("rattle-kit", made.record.kit),
                package("libc6", libc, declared="LGPL-2.1-or-later")]
    relations = [related("DOCUMENT", "DESCRIBES", "kigvarp"), related("kigvarp", "GENERATED_FROM", "kigvarp-source"),
                 related("rattle-kit", "BUILD_TOOL_OF", "kigvarp"), related("kigvarp", "DYNAMIC_LINK", "libc6")]
    told = {"spdxVersion": "SPDX-2.3", "dataLicense": "CC0-1.0", "SPDXID": "SPDXRef-DOCUMENT",
            "name": f"kigvarp-{made.version}",
            "documentNamespace": f"https://spdx.org/spdxdocs/kigvarp-{made.version}-{made.record.commit}",
            "creationInfo": {"created": f"{made.date:%Y-%m-%dT%H:%M:%SZ}", "creators": ["Tool: packaging/build"]},
            "packages": packages, "files": inside + sources, "relationships": relations}
    return (json.dumps(told, indent=1, ensure_ascii=False) + "\n").encode()
