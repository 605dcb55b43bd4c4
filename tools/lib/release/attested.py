"""The statement in forms that other tools read, an in-toto Statement and an SPDX document, and a signature over the
first, by ssh-keygen. Each form is made of the statement alone."""
import datetime
import json
import os
import subprocess

from lib.release import places

NAMESPACE = "krbrelay-release"      # of signatures (ssh-keygen -Y)
PREDICATE = "urn:krbrelay:proof:3"  # the project has no address yet
OURS = "Apache-2.0 OR MIT"
INSIDE = {"sha1": OURS, "rand_chacha": OURS, "rand_core": OURS, "jiff": "MIT", "std": "NOASSERTION"}     # LICENSE


def written(value):
    return (json.dumps(value, indent=1, ensure_ascii=False) + "\n").encode()


def in_toto(told):
    """A Statement of in-toto: the artefacts, and of them what the statement says."""
    subject = [{"name": path, "digest": {"sha256": it["sha256"]}} for path, it in sorted(told["artefacts"].items())]
    return written({"_type": "https://in-toto.io/Statement/v1", "subject": subject, "predicateType": PREDICATE,
                    "predicate": {key: value for key, value in told.items() if key != "artefacts"}})


def package(place, name, version, licence, digest=None):
    made = {"SPDXID": f"SPDXRef-{place}", "name": name, "versionInfo": version, "downloadLocation": "NOASSERTION",
            "filesAnalyzed": False, "licenseConcluded": "NOASSERTION", "licenseDeclared": licence, "copyrightText": "NOASSERTION"}
    return made | ({"checksums": [{"algorithm": "SHA256", "checksumValue": digest}]} if digest else {})


def spdx(told):
    """The artefacts, and the kit's crates that are compiled into them."""
    version = told["version"]
    artefacts = [package(f"file-{at}", path, version, OURS, it["sha256"])
                 for at, (path, it) in enumerate(sorted(told["artefacts"].items()))]
    crates = [package("crate-" + name.replace("_", "-"), name, told["kit"], licence) for name, licence in INSIDE.items()]
    relations = [("SPDXRef-DOCUMENT", "DESCRIBES", it["SPDXID"]) for it in artefacts]
    relations += [(one["SPDXID"], "CONTAINS", other["SPDXID"]) for one in artefacts for other in crates
                  if one["name"].endswith((".deb", ".whl", ".crate", f"-{version}.tar.gz"))]
    made_at = datetime.datetime.fromtimestamp(told["committed_at"], datetime.timezone.utc)
    return written({
        "spdxVersion": "SPDX-2.3", "dataLicense": "CC0-1.0", "SPDXID": "SPDXRef-DOCUMENT", "name": f"krbrelay-{version}",
        "documentNamespace": f"urn:krbrelay:{version}:{told['commit']}",
        "creationInfo": {"created": made_at.strftime("%Y-%m-%dT%H:%M:%SZ"), "creators": ["Tool: krbrelay tools/release"]},
        "packages": artefacts + crates,
        "relationships": [{"spdxElementId": one, "relationshipType": kind, "relatedSpdxElement": other}
                          for one, kind, other in relations]})


def forms(told):
    """The files of other forms, by their names."""
    base = f"krbrelay-{told['version']}"
    return {f"{base}.intoto.json": in_toto(told), f"{base}.spdx.json": spdx(told)}


# ---- a signature

def sign(folder, version, key):
    """Signs the in-toto Statement with an SSH key. OSError or CalledProcessError."""
    path = os.path.join(folder, places.signature_of(version))
    if os.path.lexists(path):
        os.remove(path)
    subprocess.run(["ssh-keygen", "-q", "-Y", "sign", "-f", key, "-n", NAMESPACE, path.removesuffix(".sig")], check=True,
                   stdin=subprocess.DEVNULL, stdout=subprocess.DEVNULL)


def unsigned(folder, version, signers):
    """Why none of these signers signed it, by a file of allowed signers (ssh-keygen(1)), or None."""
    path = os.path.join(folder, places.signature_of(version))
    if not os.path.isfile(path) or os.path.islink(path):
        return f"there is no {places.signature_of(version)}"
    with open(path.removesuffix(".sig"), "rb") as file:
        signed = file.read()
    found = subprocess.run(["ssh-keygen", "-Y", "find-principals", "-f", signers, "-s", path], check=False, text=True,
                           stdin=subprocess.DEVNULL, stdout=subprocess.PIPE, stderr=subprocess.STDOUT)
    for name in found.stdout.split() if found.returncode == 0 else ():
        done = subprocess.run(["ssh-keygen", "-Y", "verify", "-f", signers, "-I", name, "-n", NAMESPACE, "-s", path], check=False,
                              input=signed, stdout=subprocess.PIPE, stderr=subprocess.STDOUT)
        if done.returncode == 0:
            return None
    return f"{places.signature_of(version)} is of none of the signers in {signers}"
