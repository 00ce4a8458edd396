"""Messages to the built program, its replies and what a server tells of its store, for the tools that send and read them."""
import importlib.machinery
import importlib.util
import json
import os
import pathlib
import re
import socket

ROOT = pathlib.Path(__file__).resolve().parent.parent
BUILT = ROOT / "crates/gated/out/gated"
# A new store of format 1, as `gated create --format 1` makes one, and those of formats 2 and 3. They differ in their root: in its mark, and that of format 3 has the
# floor 1 behind the revision.
NEW_STORE = (ROOT / "examples/new-store.db").read_bytes()
SECOND_STORE = NEW_STORE.replace(b"GATEROOT", b"GATEROO2")
THIRD_STORE = NEW_STORE[:512] + b"GATEROO3" + NEW_STORE[520:548] + (1).to_bytes(8, "big") + NEW_STORE[556:]
EXAMPLES = sorted((ROOT / "examples/policies").iterdir())
SECONDS = 20

ADMISSION = "admissionregistration.k8s.io/v1"
NAMESPACES = "/api/v1/namespaces"
CONFIG_MAPS = f"{NAMESPACES}/default/configmaps"
DEPLOYMENTS = "/apis/apps/v1/namespaces/default/deployments"
POLICIES = f"/apis/{ADMISSION}/validatingadmissionpolicies"
BINDINGS = f"/apis/{ADMISSION}/validatingadmissionpolicybindings"
DEPLOYMENT_RULE = {"operations": ["CREATE", "UPDATE"], "apiGroups": ["apps"], "apiVersions": ["v1"], "resources": ["deployments"]}


# What a server tells on standard error before it listens.
OPENED = re.compile(rb"gated: \d+\.\d+\.\d+, [^\n]*: format [123], revision \d+, [^\n]*read in \d+\.\d\d s\n")


class Wrong(Exception):
    """What the program does and may not do."""


def tool(name):
    """A tool of this folder, as a module."""
    loader = importlib.machinery.SourceFileLoader(name, str(ROOT / "tools" / name))
    module = importlib.util.module_from_spec(importlib.util.spec_from_loader(name, loader))
    loader.exec_module(module)
    return module


def behind_opened(errors):
    """What a server told on standard error behind the line of its store; None where that line does not stand first."""
    found = OPENED.match(errors)
    return errors[found.end():] if found else None


def message(method, path, body=None, *fields):
    """The bytes of a message; the body is bytes, or what they spell as JSON."""
    text = b"" if body is None else body if isinstance(body, bytes) else json.dumps(body, separators=(",", ":")).encode()
    lines = [f"{method} {path} HTTP/1.1", "Host: h", *fields, *([f"Content-Length: {len(text)}"] if text else []), "", ""]
    return "\r\n".join(lines).encode() + text


def config_map(name, text, **metadata):
    return {"apiVersion": "v1", "kind": "ConfigMap", "metadata": {"name": name, **metadata}, "data": {"k": text}}


def namespace(name, **metadata):
    return {"apiVersion": "v1", "kind": "Namespace", "metadata": {"name": name, **metadata}}


def deployment(name, replicas):
    return {"apiVersion": "apps/v1", "kind": "Deployment", "metadata": {"name": name}, "spec": {"replicas": replicas}}


def policy(name, spec):
    rules = {"matchConstraints": {"resourceRules": [DEPLOYMENT_RULE]}}
    return {"apiVersion": ADMISSION, "kind": "ValidatingAdmissionPolicy", "metadata": {"name": name}, "spec": {**rules, **spec}}


def binding(name, of_policy):
    spec = {"policyName": of_policy, "validationActions": ["Deny"]}
    return {"apiVersion": ADMISSION, "kind": "ValidatingAdmissionPolicyBinding", "metadata": {"name": name}, "spec": spec}


def examples(folder):
    """The requests with which a policy of examples/policies is tried, in order: method, path, bytes of the body."""
    paths = {"Deployment": DEPLOYMENTS, "ConfigMap": CONFIG_MAPS, "ValidatingAdmissionPolicy": POLICIES}
    for name in ("before", "policy", "binding", "fails", "parameter", "passes", "fails"):
        if (folder / f"{name}.json").exists():
            body = json.loads((folder / f"{name}.json").read_text())
            path = paths.get(body["kind"], BINDINGS)
            is_update = name in ("fails", "passes") and (folder / "before.json").exists()
            text = json.dumps(body, separators=(",", ":")).encode()
            yield ("PUT", f"{path}/{body['metadata']['name']}", text) if is_update else ("POST", path, text)


def reply_size(text, is_head=False):
    """How many bytes the reply has whose head these begin with, or None where that is not there yet. To HEAD no body is sent, but in a refusal that
    closes, which may answer any bytes."""
    head, ending, _ = text.partition(b"\r\n\r\n")
    length = re.search(rb"\r\nContent-Length: (\d+)", head)
    if not ending or not length:
        return None
    return len(head) + 4 + (0 if is_head and b"\r\nConnection: close" not in head else int(length[1]))


def cut(output, messages):
    """The replies in an output, one to each message from the first on, and one more at most after them."""
    replies = []
    for it in (*messages, b""):
        size = reply_size(output, it.startswith(b"HEAD "))
        if size is None or len(output) < size:
            break
        replies.append(output[:size])
        output = output[size:]
    if output:
        raise Wrong(f"no whole reply begins at {output[:80]!r}")
    return replies


def take(reader, is_head=False):
    """The next reply of a connection that is read as a file, or what came of it before the connection's end."""
    head = b""
    while not head.endswith(b"\r\n\r\n"):
        line = reader.readline()
        if not line:
            return head
        head += line
    return head + reader.read(reply_size(head, is_head) - len(head))


def own_address():
    """An address of this machine that no other process uses, so that nobody takes its port, and a port that is free."""
    host = "127." + ".".join(str(os.getpid() >> shift & 255) for shift in (16, 8, 0))
    with socket.create_server((host, 0)) as server:
        return host, server.getsockname()[1]
