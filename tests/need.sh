# Sourced by the gate and by tests that use more than the gate installs:
#   need COMMAND PACKAGE..    installs Debian packages where their command is missing
need() {
    command -v "$1" >/dev/null 2>&1 && return
    shift
    if [ "$(id -u)" -eq 0 ]; then as=; else as=sudo; fi
    $as apt-get update -qq && $as apt-get install -y -qq "$@"
}
