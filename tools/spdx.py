"""A list of files by SPDX 2.3, as tags and values. Nothing is asserted on licences: there is none yet."""
import hashlib
import time

NONE = "NOASSERTION"


def sum_of(kind, octets):
    return hashlib.new(kind, octets).hexdigest()


def head(name, version, created, code):
    return f"""SPDXVersion: SPDX-2.3
DataLicense: CC0-1.0
SPDXID: SPDXRef-DOCUMENT
DocumentName: {name}
DocumentNamespace: https://spdx.org/spdxdocs/{name}-{code}
Creator: Tool: ocp-dist
Created: {created}

PackageName: ocp
SPDXID: SPDXRef-Package
PackageVersion: {version}
PackageDownloadLocation: {NONE}
FilesAnalyzed: true
PackageVerificationCode: {code}
PackageLicenseConcluded: {NONE}
PackageLicenseInfoFromFiles: {NONE}
PackageLicenseDeclared: {NONE}
PackageCopyrightText: {NONE}
Relationship: SPDXRef-DOCUMENT DESCRIBES SPDXRef-Package
"""


def entry(number, path, octets):
    return f"""
FileName: ./{path}
SPDXID: SPDXRef-File-{number}
FileChecksum: SHA1: {sum_of('sha1', octets)}
FileChecksum: SHA256: {sum_of('sha256', octets)}
LicenseConcluded: {NONE}
LicenseInfoInFile: {NONE}
FileCopyrightText: {NONE}
"""


def document(name, version, seconds, files):
    """The list of these files, each with its octets. The code of the package is the sum of the files' sums in order."""
    code = sum_of("sha1", "".join(sorted(sum_of("sha1", octets) for octets in files.values())).encode())
    created = time.strftime("%Y-%m-%dT%H:%M:%SZ", time.gmtime(seconds))
    entries = [entry(number, path, octets) for number, (path, octets) in enumerate(sorted(files.items()), 1)]
    return head(name, version, created, code) + "".join(entries)
