# What a command of this folder does first: `--help` prints the comment at its beginning, `--version` the commit and the toolchain's version, and neither does anything else. Then it goes
# to the repository's folder. What the commands share (scripts/program.sh) can be used behind it.
here=$(dirname "$(dirname "$(readlink -f "$0")")")
name=.ci/$(basename "$0")
. "$here/scripts/program.sh" || exit 2
case ${1:-} in
--help | -h)
    sed -n '2,/^set -u/s/^# //p' "$0"
    exit 0
    ;;
--version)
    echo "$name $(commit), $(rt version 2>/dev/null || echo 'no toolchain')"
    exit 0
    ;;
esac
cd "$here" || exit 1
