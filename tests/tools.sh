# For the scripts that need more than the gate's own tools: each sources this after tests/archive.sh.

apt_install() { # apt_install PACKAGE: quietly, without questions, and not for ever
  DEBIAN_FRONTEND=noninteractive timeout 600 apt-get -o Acquire::http::Timeout=30 -o Acquire::Retries=1 -o DPkg::Lock::Timeout=120 \
    install -y --no-install-recommends "$1" >/dev/null 2>&1
}

need_package() { # need_package TOOL PACKAGE: installs the system's package where it may, or names it and gives up
  command -v "$1" >/dev/null 2>&1 && return
  if [ "$(id -u)" -eq 0 ] && command -v apt-get >/dev/null 2>&1; then
    echo "$1 is not here: installing the package $2"
    apt_install "$2" || { timeout 600 apt-get update >/dev/null 2>&1 && apt_install "$2"; }
    hash -r
  fi
  command -v "$1" >/dev/null 2>&1 || give_up "missing tool: $1 (package $2)"
}
