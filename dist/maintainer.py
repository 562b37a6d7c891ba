"""The scripts that dpkg runs for packages of ours, which dist/deb makes."""

NAMES = ("postinst", "prerm", "postrm")
HEAD = "#!/bin/sh\nset -e\n"
# Below another root no systemd runs.
IS_RUNNING = '[ -z "${DPKG_ROOT:-}" ] && [ -d /run/systemd/system ]'
IS_THERE = "command -v {} >/dev/null 2>&1"
BELOW_ROOT = '${DPKG_ROOT:+--root="$DPKG_ROOT"}'


def _if_there(tool, words):
    return f"if {IS_THERE.format(tool)}; then\n    {tool} {words}\nfi\n"


def of_modules(package):
    """By name, the scripts of a package with modules for Python: they are compiled for the one that is there, and what that wrote is taken away."""
    tools = {"postinst": "py3compile", "prerm": "py3clean"}
    return {name: HEAD + _if_there(tool, f"-p {package}") for name, tool in tools.items()}


def of_units(package, unit):
    """By name, the scripts of a package that also has a user, in PACKAGE.conf, and a timer with its service. Neither is begun by them: their
    settings are to be edited first."""
    reloaded = f"if {IS_RUNNING}; then\n    systemctl --system daemon-reload >/dev/null || true\nfi\n"
    made = _if_there("systemd-sysusers", f"{BELOW_ROOT} {package}.conf") + _if_there("deb-systemd-helper", f"update-state {unit}.timer")
    ended = f'if [ "$1" = remove ] && {IS_RUNNING}; then\n    deb-systemd-invoke stop {unit}.timer {unit}.service >/dev/null || true\nfi\n'
    gone = f'if [ "$1" = purge ] && {IS_THERE.format("deb-systemd-helper")}; then\n    deb-systemd-helper purge {unit}.timer\nfi\n'
    scripts = of_modules(package)
    scripts["postinst"] += made + reloaded
    scripts["prerm"] += ended
    return {**scripts, "postrm": HEAD + gone + reloaded}
