"""examples/kubernetes.yaml: its fields are the API's, its parts fit each other, and its settings are good."""

import re
import subprocess
import tomllib

import pytest

import sizing
from documents import text_of

pytestmark = pytest.mark.quick

yaml = pytest.importorskip("yaml", reason="missing: Debian's python3-yaml")

# What the API's reference has of the fields that are used: under each name those that may be in it.
LABELS = "app"
FIELDS = {
    "Secret": "apiVersion kind metadata type stringData",
    "Service": "apiVersion kind metadata spec",
    "Deployment": "apiVersion kind metadata spec",
    "PodDisruptionBudget": "apiVersion kind metadata spec",
    "metadata": "name namespace labels annotations",
    "Service.spec": "selector ports type clusterIP",
    "Service.spec.ports": "name port targetPort protocol",
    "PodDisruptionBudget.spec": "maxUnavailable minAvailable selector",
    "Deployment.spec": "replicas selector strategy template",
    "Deployment.spec.template": "metadata spec",
    "strategy": "type rollingUpdate",
    "rollingUpdate": "maxUnavailable maxSurge",
    "template.spec": "automountServiceAccountToken terminationGracePeriodSeconds topologySpreadConstraints securityContext"
    " containers volumes",
    "topologySpreadConstraints": "maxSkew topologyKey whenUnsatisfiable labelSelector",
    "spec.securityContext": "runAsNonRoot runAsUser runAsGroup fsGroup seccompProfile",
    "seccompProfile": "type localhostProfile",
    "containers": "name image command args env ports lifecycle readinessProbe livenessProbe resources securityContext"
    " volumeMounts",
    "env": "name value valueFrom",
    "containers.ports": "name containerPort protocol",
    "lifecycle": "preStop postStart",
    "preStop": "exec httpGet tcpSocket sleep",
    "exec": "command",
    "readinessProbe": "httpGet tcpSocket exec periodSeconds failureThreshold timeoutSeconds",
    "livenessProbe": "httpGet tcpSocket exec periodSeconds failureThreshold timeoutSeconds",
    "httpGet": "path port",
    "tcpSocket": "port",
    "resources": "requests limits",
    "requests": "cpu memory",
    "limits": "cpu memory",
    "containers.securityContext": "readOnlyRootFilesystem allowPrivilegeEscalation capabilities",
    "capabilities": "drop add",
    "volumeMounts": "name mountPath readOnly",
    "volumes": "name secret emptyDir",
    "secret": "secretName defaultMode",
    "emptyDir": "medium sizeLimit",
    "selector": "matchLabels app",
    "labelSelector": "matchLabels",
    "labels": LABELS,
    "matchLabels": LABELS,
    "annotations": "prometheus.io/scrape prometheus.io/port",
    "stringData": "relay.toml",
}
VERSIONS = {"Secret": "v1", "Service": "v1", "Deployment": "apps/v1", "PodDisruptionBudget": "policy/v1"}


@pytest.fixture
def objects():
    """What the file describes, by kind."""
    parts = list(yaml.safe_load_all(text_of("examples/kubernetes.yaml")))
    assert len(parts) == len(VERSIONS)
    return {part["kind"]: part for part in parts}


def strange(value, path):
    """The fields of a value at a path that the API does not have."""
    if isinstance(value, list):
        return [one for member in value for one in strange(member, path)]
    if not isinstance(value, dict):
        return []
    ends = [".".join(path[at:]) for at in range(len(path))]
    known = next((FIELDS[end].split() for end in ends if end in FIELDS), [])
    own = [".".join([*path, key]) for key in value if key not in known]
    return own + [one for key, member in value.items() for one in strange(member, [*path, key])]


def test_fields(objects):
    """Each object is of the API's version that has it, and has no field that the API does not have."""
    assert {kind: one["apiVersion"] for kind, one in objects.items()} == VERSIONS
    assert [field for kind, one in objects.items() for field in strange(one, [kind])] == []


def test_parts_fit(objects):
    """Names lead to what is there, the same labels are everywhere, and all is in one namespace."""
    pod = objects["Deployment"]["spec"]["template"]
    (container,) = pod["spec"]["containers"]
    labels = pod["metadata"]["labels"]
    selectors = [objects[kind]["spec"]["selector"] for kind in ("Deployment", "PodDisruptionBudget")]
    assert [one["matchLabels"] for one in selectors] == [labels, labels] and objects["Service"]["spec"][
        "selector"
    ] == labels
    assert len({one["metadata"]["namespace"] for one in objects.values()}) == 1
    volumes = {one["name"]: one for one in pod["spec"]["volumes"]}
    assert {one["name"] for one in container["volumeMounts"]} == set(volumes)
    assert volumes["settings"]["secret"]["secretName"] == objects["Secret"]["metadata"]["name"]
    ports = {one["name"]: one["containerPort"] for one in container["ports"]}
    assert {one["targetPort"] for one in objects["Service"]["spec"]["ports"]} <= set(ports)
    settings = tomllib.loads(objects["Secret"]["stringData"]["relay.toml"])["relay"]
    assert [settings[key].rpartition(":")[2] for key in ("listen", "monitor")] == [str(port) for port in ports.values()]
    version = re.search(r'VERSION: &str = "(.+)";', text_of("crates/fwd_monitor/src/version.rt"))[1]
    assert container["image"].endswith(f":{version}")


def test_who_reads_and_writes(objects):
    """The image's user may read the settings, nobody else may, and only the control socket's folder can be written to."""
    pod = objects["Deployment"]["spec"]["template"]["spec"]
    user = re.search(r"relay:x:(\d+):(\d+)", text_of("packaging/container.sh"))
    who = pod["securityContext"]
    assert [who["runAsUser"], who["runAsGroup"], who["fsGroup"]] == [int(user[1]), int(user[2]), int(user[2])]
    (container,) = pod["containers"]
    assert container["securityContext"]["readOnlyRootFilesystem"] is True
    volumes = {one["name"]: one for one in pod["volumes"]}
    assert volumes["settings"]["secret"]["defaultMode"] == 0o440
    written = [one["mountPath"] for one in container["volumeMounts"] if not one.get("readOnly")]
    settings = tomllib.loads(objects["Secret"]["stringData"]["relay.toml"])["relay"]
    assert written == [settings["control"].rpartition("/")[0]]


def test_how_it_ends(objects):
    """It is stopped by `forward_relay stop` within its grace, and no probe kills a relay that refuses a page."""
    pod = objects["Deployment"]["spec"]["template"]["spec"]
    (container,) = pod["containers"]
    settings = tomllib.loads(objects["Secret"]["stringData"]["relay.toml"])["relay"]
    assert pod["terminationGracePeriodSeconds"] * 1000 > settings["stop_wait"]
    program, words = container["command"], container["args"]
    assert container["lifecycle"]["preStop"]["exec"]["command"] == [*program, "stop", words[-1]]
    assert container["readinessProbe"]["httpGet"] == {"path": "/ready", "port": "monitor"}
    assert "tcpSocket" in container["livenessProbe"] and "httpGet" not in container["livenessProbe"]


def test_settings(objects, program, tmp_path):
    """Its settings are good, bring no caution, and need less memory than the limit, as the comment there says."""
    text = objects["Secret"]["stringData"]["relay.toml"]
    path = tmp_path / "relay.toml"
    path.write_text(text.replace("/run/", f"{tmp_path}/"))
    done = subprocess.run([program, "check", path], capture_output=True, text=True, timeout=60)
    assert (done.returncode, done.stderr) == (0, ""), done.stderr
    (container,) = objects["Deployment"]["spec"]["template"]["spec"]["containers"]
    limit = int(re.fullmatch(r"(\d+)Mi", container["resources"]["limits"]["memory"])[1]) << 20
    planned = sum(sizing.planned(tomllib.loads(text)).values())
    assert planned < limit
    assert f"some {planned / 1e9:.2f} GB by these settings" in text_of("examples/kubernetes.yaml")
