# What each script of this folder begins with: `top` is the repository, `program` the build that it measures, and `folder`
# a new folder that goes with the script.
set -eu
top=$(cd "$(dirname "${BASH_SOURCE[0]}")/.." && pwd)
program=${APF_RUN:-$top/crates/apf_run/out/apf_run}
[ -x "$program" ] || { echo "No $program: run ./install first." >&2; exit 2; }
folder=$(mktemp -d)
trap 'rm -rf "$folder"' EXIT
