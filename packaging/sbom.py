"""Makes the bill of materials of a build: CycloneDX 1.5, as JSON."""
import json
import uuid

import unproved

SPACE = uuid.UUID("6f8a2a4e-6f0f-4d7e-9f38-0d0c5a3a9b60")


def libraries(has_library):
    """The crates that the programs and the library for C are made of, and the toolchain's libraries below them."""
    listed = unproved.crates_listed()
    tops = [it for it in ("hagzimot", "capnp_relay_cli", *["hagzimot_c"] * has_library) if it in listed]
    crates = {it for name in tops for it in [name, *unproved.crates_below(name, listed)]}
    return crates, sorted({"std", *(it for name in crates for it in listed[name] if it not in listed)})


def component(kind, name, version, purl=None, **more):
    found = {"type": kind, "bom-ref": f"{name}@{version}", "name": name, "version": version, **more}
    return {**found, "purl": purl} if purl else found


def bill(statement, programs, made, has_library=False):
    """The bill of a build, by its statement, the sums of its programs and the time of its commit."""
    version, kit = statement["version"], statement["toolchain"]
    crates, names = libraries(has_library)
    own = component("application", "hagzimot", version, licenses=[{"license": {"id": "MIT"}}])
    own["hashes"] = [{"alg": "SHA-256", "content": programs["hagzimot"]}]
    said = {"commit": statement["commit"], "proved": statement["proved"], "logic": statement["logic"], "axioms": statement.get("axioms"), "handles": statement.get("handles")}
    own["properties"] = [{"name": f"hagzimot:{key}", "value": json.dumps(value) if not isinstance(value, str) else value} for key, value in said.items()]
    parts = [component("platform", "rattle-kit", kit, description="compiler, prover, linker and proved standard library")]
    parts += [component("library", name, kit, description="a library of the toolchain") for name in names]
    parts += [component("library", name, version, description="a crate of the repository") for name in sorted(crates)]
    parts.append(component("library", "glibc", "2.34 or newer", description="the system's C library, linked dynamically"))
    uses = [{"ref": own["bom-ref"], "dependsOn": [it["bom-ref"] for it in parts]}]
    return {
        "bomFormat": "CycloneDX",
        "specVersion": "1.5",
        "serialNumber": f"urn:uuid:{uuid.uuid5(SPACE, json.dumps([statement, programs], sort_keys=True))}",
        "version": 1,
        "metadata": {"timestamp": made, "component": own},
        "components": parts,
        "dependencies": uses,
    }
